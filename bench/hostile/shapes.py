"""Inputs of `pipectl compile` that want as much of it as they can, at its limits and past them. Each is a function that gives
the bundle's text and the arguments of the run, with the statuses that the rules of docs/TEMPLATES.md allow (0 compiled, 8 refused, 9 no
bundle, 10 too many bytes); want of memory (6) is always allowed. `seed` says that an input is small enough to be changed by
mutate.py, and OVER which are over the goal so far (docs/LIMITS.md). What comes near a limit and isn't past it has its whole
answer in `wanted`, and want of memory is none."""

FILE = 262_144  # bytes of a file
TEXT = 65_536  # bytes of a text that a function makes
WHOLE = 67_108_864  # bytes of a bundle
ALL = []
OVER = frozenset()


def shape(*statuses, seed=True, wanted=None):
    def put(function):
        ALL.append((function.__name__.replace("_", "-"), function, set(statuses), seed, wanted))
        return function

    return put


def bundle(*texts):
    """A bundle of files: the root's text, and then (path, text)."""
    return "".join(f"%%% app refs/heads/main {path}\n{text}" for path, text in (("/ci.yml", texts[0]), *texts[1:]))


def filled(part, size=FILE):
    """As many of a text as fit into so many bytes."""
    return part * (size // len(part))


def numbers(count):
    return ",".join(map(str, range(count)))


def object_parameter(text):
    return f"parameters:\n- name: l\n  type: object\n  default: {text}\n"


def text_parameter(size):
    return f"parameters:\n- name: t\n  default: {'a' * size}\n"


def nested_blocks(depth, head, last):
    """Blocks in one another, each behind a dash."""
    return "".join("  " * n + f"- {head}\n" for n in range(depth)) + "  " * depth + last


CALL = "- template: t.yml\n"
CALLS = "steps:\n" + CALL

# ---- stack: what is open at once


@shape(8)
def a_template_under_20_ifs_calls_itself():
    return bundle(CALLS, ("/t.yml", "steps:\n" + nested_blocks(20, "${{if 1}}:", CALL)))


@shape(8)
def a_template_that_is_extended_under_60_ifs_calls_itself():
    root = "".join("  " * n + "${{if 1}}:\n" for n in range(60)) + "  " * 60 + "extends: {template: e.yml}\n"
    return bundle(root, ("/e.yml", CALLS), ("/t.yml", "steps:\n" + nested_blocks(20, "${{if 1}}:", CALL)))


@shape(8)
def a_template_under_31_ifs_calls_itself():
    inner = "{'${{if 1}}':[" * 30 + "{template: t.yml}" + "]}" * 30
    return bundle(CALLS, ("/t.yml", f"steps:\n- {inner}\n"))


@shape(8)
def a_template_under_30_loops_calls_itself():
    inner = "{'${{each x in parameters.l}}':[" * 30 + "{template: t.yml}" + "]}" * 30
    return bundle(CALLS, ("/t.yml", f"{object_parameter('[1]')}steps:\n- {inner}\n"))


@shape(8)
def a_template_in_28_mappings_99_levels():
    text = "steps:\n- " + "{a: " * 28 + "{steps: [{template: t%d.yml}]}" + "}" * 28 + "\n"
    files = [(f"/t{n}.yml", text % (n + 1)) for n in range(99)]
    return bundle("steps:\n- template: t0.yml\n", *files, ("/t99.yml", "steps:\n- script: a\n"))


@shape(8)
def a_template_in_60_mappings_calls_itself():
    return bundle(CALLS, ("/t.yml", "steps:\n- " + "{a: " * 58 + "{steps: [{template: t.yml}]}" + "}" * 58 + "\n"))


@shape(8)
def a_template_in_60_lists_calls_itself():
    return bundle(CALLS, ("/t.yml", "steps:\n- " + "[" * 58 + "{steps: [{template: t.yml}]}" + "]" * 58 + "\n"))


@shape(8)
def a_template_in_60_inserts_calls_itself():
    return bundle(CALLS, ("/t.yml", "steps:\n- " + "{'${{insert}}': " * 58 + "{a: {steps: [{template: t.yml}]}}" + "}" * 58 + "\n"))


@shape(8)
def defaults_that_nest_call_their_template():
    default = "[" + "{a: " * 56 + "{steps: [{template: t.yml}]}" + "}" * 56 + "]"
    text = f"parameters:\n- name: s\n  type: stepList\n  default: {default}\nsteps:\n- ${{{{ parameters.s }}}}\n"
    return bundle(CALLS, ("/t.yml", text))


@shape(8)
def arguments_that_nest_once_more_a_level():
    lists = "[" * 50 + "'${{ parameters.a }}'" + "]" * 50
    text = f"parameters:\n- name: a\n  type: object\n  default: []\nsteps:\n- template: t.yml\n  parameters:\n    a: {lists}\n"
    return bundle(CALLS, ("/t.yml", text))


@shape(8)
def arguments_that_nest_and_are_put_at_each_level():
    text = "parameters:\n- name: a\n  type: stepList\n  default: []\nsteps:\n- b: ${{ parameters.a }}\n- template: t.yml\n  parameters:\n    a:\n"
    text += "    - [[[[[[[['${{ parameters.a }}']]]]]]]]\n"
    return bundle(CALLS, ("/t.yml", text))


@shape(8)
def steps_in_arguments_call_from_level_to_level():
    text = "parameters:\n- name: s\n  type: stepList\n  default: []\nsteps:\n- template: t.yml\n  parameters:\n    s:\n    - template: t.yml\n    - ${{ parameters.s }}\n- ${{ parameters.s }}\n"
    return bundle(CALLS, ("/t.yml", text))


@shape(0)
def an_expression_of_50_levels_behind_99_calls():
    deep = "not(" * 49 + "1" + ")" * 49
    files = [(f"/t{n}.yml", "steps:\n" + nested_blocks(4, "${{if 1}}:", f"- template: t{n + 1}.yml\n")) for n in range(99)]
    return bundle("steps:\n- template: t0.yml\n", *files, ("/t99.yml", f"steps:\n- script: ${{{{ {deep} }}}}\n"))


def ever_deeper(last):
    """A parameter of 900 nodes in one another, made by 15 levels of calls, and what stands at the last."""
    lists = "[" * 58 + "'${{ parameters.a }}'" + "]" * 58
    pass_on = "parameters:\n- name: a\n  type: object\n  default: x\nsteps:\n- template: t%d.yml\n  parameters:\n    a: " + lists + "\n"
    files = [(f"/t{n}.yml", pass_on % (n + 1)) for n in range(15)]
    return bundle("steps:\n- template: t0.yml\n", *files, ("/t15.yml", "parameters:\n- name: a\n  type: object\nsteps:\n" + last))


@shape(0)
def a_value_of_900_levels_put():
    return ever_deeper("- script: a\n  env: ${{ parameters.a }}\n")


@shape(0)
def a_value_of_900_levels_compared():
    return ever_deeper("- ${{ if eq(parameters.a, parameters.a) }}:\n  - script: a\n")


@shape(0, 8)
def a_value_of_900_levels_contained():
    return ever_deeper("- ${{ if containsValue(parameters.a, 'x') }}:\n  - script: a\n- script: b\n")


@shape(0)
def a_value_of_900_levels_looped_over():
    return ever_deeper("- ${{ each x in parameters.a }}:\n  - ${{ each y in x }}:\n    - script: a\n")


@shape(0)
def flow_sequences_of_64_levels_in_each_of_100_files():
    text = "steps:\n- script: a\n  env: " + "[" * 60 + "]" * 60 + "\n"
    files = [(f"/t{n}.yml", text) for n in range(100)]
    return bundle("steps:\n" + "".join(f"- template: t{n}.yml\n" for n in range(100)), *files)


@shape(8)
def brackets_alone():
    return bundle("[" * (FILE - 1) + "\n")


# ---- made bytes


@shape(8)
def a_text_that_doubles_from_level_to_level():
    text = "parameters:\n- name: a\n  default: a\nsteps:\n- template: t.yml\n  parameters:\n    a: ${{parameters.a}}${{parameters.a}}\n"
    return bundle(CALLS, ("/t.yml", text))


@shape(8)
def a_key_that_doubles_from_level_to_level():
    text = "parameters:\n- name: a\n  type: object\n  default: {a: 1}\nsteps:\n- ${{ each p in parameters.a }}:\n  - template: t.yml\n    parameters:\n      a:\n        ${{p.key}}${{p.key}}: 1\n"
    return bundle(CALLS, ("/t.yml", text))


def texts(count, size, body):
    return bundle(f"parameters:\n- name: t\n  default: {'a' * size}\n- name: l\n  type: object\n  default: [{numbers(count)}]\nsteps:\n- ${{{{ each x in parameters.l }}}}:\n  {body}\n")


@shape(8, seed=False)
def texts_of_65530_bytes_20000_times():
    return texts(20_000, TEXT - 6, "- script: ${{ format('{0}', parameters.t) }}")


@shape(8, seed=False)
def texts_in_upper_case_of_65530_bytes_20000_times():
    return texts(20_000, TEXT - 6, "- script: ${{ upper(parameters.t) }}")


@shape(8, seed=False)
def joined_texts_of_130000_bytes_20000_times():
    return texts(20_000, TEXT - 6, "- script: ${{ parameters.t }}${{ parameters.t }}")


@shape(8, seed=False)
def a_literal_of_100000_bytes_in_20000_turns():
    return bundle(object_parameter(f"[{numbers(20_000)}]") + f"steps:\n- ${{{{ each x in parameters.l }}}}:\n  - script: {'a' * 100_000}\n")


@shape(8, seed=False)
def a_key_of_100000_bytes_in_20000_turns():
    return bundle(object_parameter(f"[{numbers(20_000)}]") + f"steps:\n- ${{{{ each x in parameters.l }}}}:\n  - {'a' * 100_000}: b\n")


@shape(0, 8, seed=False)
def a_scalar_of_10000_pieces_of_65530_bytes():
    return bundle(text_parameter(TEXT - 6) + "steps:\n- script: \"" + "${{parameters.t}}" * 10_000 + "\"\n")


@shape(0, 8, seed=False)
def a_key_of_10000_pieces_of_65530_bytes():
    return bundle(text_parameter(TEXT - 6) + "steps:\n- script: a\n  env:\n    \"" + "${{parameters.t}}" * 10_000 + "\": a\n")


@shape(8, seed=False)
def a_default_of_200000_bytes_in_14000_calls():
    text = f"parameters:\n- name: t\n  default: {'a' * 200_000}\nsteps:\n- script: a\n"
    return bundle("steps:\n" + CALL * 14_000, ("/t.yml", text))


@shape(8, seed=False)
def a_default_of_100000_nodes_open_at_100_levels():
    text = object_parameter("[" + "a," * 100_000 + "]") + CALLS
    return bundle(CALLS, ("/t.yml", text))


@shape(8, seed=False)
def a_default_of_100000_nodes_in_14000_calls():
    text = object_parameter("[" + "a," * 100_000 + "]") + "steps:\n- script: a\n"
    return bundle("steps:\n" + CALL * 14_000, ("/t.yml", text))


@shape(0)
def arguments_of_1000_nodes_in_each_of_25_calls():
    arguments = ",".join(f"k{n}: v" for n in range(1_000))
    text = "parameters:\n- name: a\n  type: object\nsteps:\n- script: a\n"
    return bundle("steps:\n" + f"- {{template: t.yml, parameters: {{a: {{{arguments}}}}}}}\n" * 25, ("/t.yml", text))


# ---- work


def looped(turns, body, declared=""):
    return f"parameters:\n- name: l\n  type: object\n  default: [{numbers(turns)}]\n{declared}steps:\n- ${{{{ each x in parameters.l }}}}:\n  {body}\n"


def with_text(size):
    return f"- name: t\n  default: {'a,' * (size // 2)}\n"


@shape(0, 8, seed=False)
def conditions_that_split_65536_bytes_in_17000_turns():
    return bundle(looped(17_000, "- ${{ if eq(length(split(parameters.t, ',')), 0) }}:\n    - script: a", with_text(TEXT)))


@shape(0, 8)
def conditions_that_split_what_a_default_repeats():
    text = "parameters:\n- name: l\n  type: object\n  default: [1,2,3,4,5,6,7,8,9]\nsteps:\n"
    for level in range(5):
        text += "  " * level + f"- ${{{{each v{level} in parameters.l}}}}:\n"
    text += "  " * 5 + "- ${{if eq(length(split(replace(replace(replace(replace('aaaaaaaaaaaa','a','bbbbbbbb'),'b','cccccccc'),'c','dddddddd'),'d','ee'),'')),0)}}:\n" + "  " * 6 + "- a\n"
    return bundle(text)


@shape(0, 8, seed=False)
def conditions_that_replace_in_65536_bytes_in_17000_turns():
    return bundle(looped(17_000, "- ${{ if eq(replace(parameters.t, 'a', 'b'), 0) }}:\n    - script: a", with_text(TEXT)))


@shape(0, 8, seed=False)
def conditions_that_seek_in_200000_bytes_in_5000_turns():
    return bundle(looped(5_000, "- ${{ if contains(parameters.t, 'aab') }}:\n    - script: a", with_text(200_000)))


def whole_parameters(condition, count=8_000, items=50_000):
    uses = f"- ${{{{ if {condition} }}}}:\n  - script: a\n"
    return bundle(object_parameter(f"[{'a,' * items}]") + "steps:\n" + filled(uses, min(count * len(uses), FILE - 2 * items - 200)))


@shape(0, 8, seed=False)
def length_of_50000_items_often():
    return whole_parameters("eq(length(parameters.l), 1)")


@shape(0, 8, seed=False)
def value_contained_in_50000_items_often():
    return whole_parameters("containsValue(parameters.l, 'b')")


@shape(0, 8, seed=False)
def whole_parameter_equal_to_itself_often():
    return whole_parameters("ne(parameters.l, parameters.l)")


@shape(0, 8, seed=False)
def whole_parameter_among_others_often():
    return whole_parameters("in('b', parameters.l, parameters.l, parameters.l)")


@shape(0, 8, seed=False)
def whole_parameters_formatted():
    return whole_parameters("eq(format('a', parameters.l, parameters.l, parameters.l), 1)")


@shape(0, 8, seed=False)
def whole_parameter_joined_often():
    return whole_parameters("eq(join('', parameters.l), 1)")


@shape(0, 8, seed=False)
def projections_of_50000_items_often():
    return whole_parameters("eq(length(parameters.l.*.a), 1)")


@shape(0, 8, seed=False)
def a_condition_of_100000_bytes_in_20000_turns():
    return bundle(looped(20_000, "- ${{ if and(" + "1," * 49_000 + "0) }}:\n    - script: a"))


@shape(0, 8, seed=False)
def a_condition_of_10000_ors_in_20000_turns():
    return bundle(looped(20_000, "- ${{ if or(" + "'aaaaaaa'," * 9_000 + "0) }}:\n    - script: a"))


@shape(0, 8, seed=False)
def elseifs_that_split_65536_bytes():
    declared = "parameters:\n" + with_text(TEXT)
    text = declared + "steps:\n- ${{ if 0 }}: []\n" + filled("- ${{ elseif eq(length(split(parameters.t,',')),0) }}: []\n", FILE - TEXT - 400)
    return bundle(text)


@shape(8, seed=False)
def paths_of_65530_bytes_in_10000_calls():
    text = text_parameter(TEXT - 6) + "steps:\n" + filled("- template: ${{parameters.t}}/../t.yml\n", FILE - TEXT - 200)
    return bundle(text, ("/t.yml", "steps:\n- script: a\n"))


@shape(8)
def names_5000_declared_in_7000_calls():
    text = "parameters:\n" + "".join(f"- {{name: p{n}, default: a}}\n" for n in range(5_000)) + "steps:\n- script: a\n"
    return bundle("steps:\n" + CALL * 7_000, ("/t.yml", text))


@shape(8)
def names_18000_declared_in_the_older_form():
    return bundle("parameters:\n" + "".join(f"  p{n}: a\n" for n in range(18_000)) + "steps:\n" + "- script: a\n" * 2_001)


@shape(0, 8)
def values_of_10000_allowed_ones_in_7000_calls():
    text = f"parameters:\n- name: p\n  default: 9999\n  values: [{numbers(10_000)}]\nsteps:\n- script: a\n"
    return bundle("steps:\n" + CALL * 7_000, ("/t.yml", text))


@shape(8)
def the_last_of_5000_parameters_in_20000_turns():
    declared = "".join(f"- {{name: p{n}, default: a}}\n" for n in range(5_000))
    return bundle(looped(20_000, "- script: ${{ parameters.p4999 }}", declared))


@shape(8)
def names_1000_declared_in_7000_calls():
    text = "parameters:\n" + "".join(f"- {{name: p{n}, default: a}}\n" for n in range(1_000)) + "steps:\n- script: a\n"
    return bundle("steps:\n" + CALL * 7_000, ("/t.yml", text))


@shape(8)
def arguments_1000_with_long_names_in_20000_turns():
    text = "parameters:\n" + "".join(f"- name: {'p' * 95}{n:04}\n" for n in range(1_000)) + "steps:\n- script: a\n"
    given = ",".join(f"{'P' * 95}{n:04}: a" for n in reversed(range(1_000)))
    return bundle(looped(20_000, f"- template: t.yml\n    parameters: {{{given}}}"), ("/t.yml", text))


@shape(8)
def the_last_of_1000_parameters_with_long_names_in_20000_turns():
    declared = "".join(f"- {{name: {'p' * 95}{n:04}, default: a}}\n" for n in range(999))
    return bundle(looped(20_000, f"- script: ${{{{ parameters.{'p' * 95}0998 }}}}", declared))


@shape(8)
def the_last_of_1500_variables_with_long_names_in_15000_turns():
    variables = "variables:\n" + "".join(f"  {'v' * 90}{n:04}: a\n" for n in range(1_500))
    return bundle(looped(15_000, f"- script: ${{{{ variables.{'v' * 90}1499 }}}}", variables))


@shape(8)
def the_last_of_1500_long_keys_in_15000_turns():
    declared = "- name: o\n  type: object\n  default: {" + ",".join(f"{'k' * 90}{n:04}: a" for n in range(1_500)) + "}\n"
    return bundle(looped(15_000, f"- script: ${{{{ parameters.o.{'k' * 90}1499 }}}}", declared))


@shape(8)
def the_last_of_1000_repositories_with_long_names_in_20000_turns():
    aliases = "".join(f"  - {{repository: {'r' * 90}{n:04}, name: b}}\n" for n in range(1_000))
    text = bundle(f"resources:\n  repositories:\n{aliases}" + looped(20_000, f"- template: t.yml@{'r' * 90}0999"))
    return text + "%%% b refs/heads/main /t.yml\nsteps:\n- script: a\n"


@shape(8)
def the_last_of_5000_variables_in_20000_turns():
    variables = "variables:\n" + "".join(f"  v{n}: a\n" for n in range(5_000))
    return bundle(looped(20_000, "- script: ${{ variables.v4999 }}", variables))


@shape(8)
def the_last_of_5000_keys_in_20000_turns():
    declared = "- name: o\n  type: object\n  default: {" + ",".join(f"k{n}: a" for n in range(5_000)) + "}\n"
    return bundle(looped(20_000, "- script: ${{ parameters.o.k4999 }}", declared))


@shape(8)
def loops_of_2000_items_of_100_bytes_in_one_another():
    items = ",".join(f"'{'a' * 96}{n:04}'" for n in range(2_000))
    return bundle(object_parameter(f"[{items}]") + "steps:\n- ${{ each x in parameters.l }}:\n  - ${{ each y in parameters.l }}:\n    - ${{ if eq(x, y) }}:\n      - script: a\n")


@shape(8)
def empty_loops_over_loops():
    text = object_parameter(f"[{numbers(280)}]") + "steps:\n"
    for level in range(4):
        text += "  " * level + f"- ${{{{ each v{level} in parameters.l }}}}:\n"
    return bundle(text + "  " * 4 + "- ${{ if 0 }}: []\n")


@shape(0, 8, seed=False)
def conditions_that_split_at_20000_characters_in_5000_turns():
    characters = "".join(chr(0x4E00 + n) for n in range(20_000))
    declared = f"- name: t\n  default: {'b' * TEXT}\n- name: s\n  default: {characters}\n"
    return bundle(looped(5_000, "- ${{ if eq(length(split(parameters.t, parameters.s)), 0) }}:\n    - script: a", declared))


@shape(0, 8)
def names_sought_through_50_loops_in_20000_turns():
    text = object_parameter(f"[{numbers(20_000)}]").replace("- name: l", "- name: o\n  type: object\n  default: [1]\n- name: l") + "steps:\n"
    head = "".join("{'${{each x%d in parameters.o}}':" % n for n in range(50))
    condition = "or(" + "eq(parameters.o,1)," * 200 + "0)"
    return bundle(text + "- " + head + "{'${{each x in parameters.l}}':{'${{if " + condition + "}}': []}}" + "}" * 50 + "\n")


@shape(0, 8, seed=False)
def an_elseif_of_100000_bytes_behind_a_taken_branch_in_20000_turns():
    return bundle(looped(20_000, "- ${{ if 1 }}: []\n  - ${{ elseif " + "a" * 100_000 + " }}: []"))


@shape(0, 8, seed=False)
def a_branch_of_60000_nodes_not_taken_in_20000_turns():
    return bundle(looped(20_000, "- ${{ if 0 }}: [" + "a," * 60_000 + "]"))


@shape(8, seed=False)
def a_plain_path_of_200000_bytes_called_in_10000_turns():
    return bundle(looped(10_000, f"- template: {'a' * 200_000}/../t.yml"), ("/t.yml", "steps:\n- script: a\n"))


@shape(8)
def a_template_of_15000_keys_called_7000_times():
    text = "steps:\n- script: a\n" + "".join(f"k{n}: a\n" for n in range(15_000))
    return bundle("steps:\n" + CALL * 7_000, ("/t.yml", text))


@shape(8)
def templates_that_call_the_next_twice_and_give_nothing():
    files = [(f"/t{n}.yml", f"steps:\n- template: t{n + 1}.yml\n- template: t{n + 1}.yml\n") for n in range(98)]
    return bundle("steps:\n- template: t0.yml\n", *files, ("/t98.yml", "steps: []\n"))


# ---- plans


@shape(0, seed=False)
def legs_100_wait_100_times_for_100_legs():
    legs = "strategy:\n    parallel: 100\n  steps:\n  - script: a\n"
    name, other = "a" * 100, "b" * 100
    waits = f"[{','.join([name] * 100)}]"
    return bundle(f"jobs:\n- job: {name}\n  {legs}- job: {other}\n  dependsOn: {waits}\n  {legs}")


@shape(0, 8, seed=False)
def a_condition_of_200000_bytes_on_100_legs():
    condition = "and(" + "1," * 99_000 + "1)"
    return bundle(f"jobs:\n- job: a\n  condition: {condition}\n  strategy:\n    parallel: 100\n  steps:\n  - script: a\n")


@shape(0, 8, seed=False)
def late_values_of_200000_bytes_on_100_legs():
    value = "$[ and(" + "1," * 99_000 + "1) ]"
    return bundle(f"jobs:\n- job: a\n  variables:\n    v: {value}\n  strategy:\n    parallel: 100\n  steps:\n  - script: a\n")


@shape(0, 8, seed=False)
def variables_10000_on_100_legs():
    variables = "".join(f"    v{n}: aaaaaaaaaa\n" for n in range(10_000))
    return bundle(f"jobs:\n- job: a\n  variables:\n{variables}  strategy:\n    parallel: 100\n  steps:\n  - script: a\n")


@shape(0, 8, seed=False)
def demands_20000_on_100_legs():
    demands = ",".join(f"d{n}" for n in range(20_000))
    return bundle(f"jobs:\n- job: a\n  pool:\n    name: p\n    demands: [{demands}]\n  strategy:\n    parallel: 100\n  steps:\n  - script: a\n")


@shape(0, 8, seed=False)
def groups_10000_on_100_legs():
    groups = "".join(f"  - group: g{n}\n" for n in range(10_000))
    return bundle(f"jobs:\n- job: a\n  variables:\n{groups}  strategy:\n    parallel: 100\n  steps:\n  - script: a\n")


@shape(0, 8, seed=False)
def steps_2000_on_100_legs_with_long_names_of_files():
    key = f"{'r' * 64} refs/heads/{'b' * 117} /{'p' * 250}.yml"
    text = "jobs:\n" + "".join(f"- job: {name}\n  strategy:\n    parallel: 100\n  steps:\n" + "  - script: a\n" * 1_000 for name in "ab")
    return f"%%% {key}\n{text}"


@shape(0, 8)
def a_matrix_of_100_legs_with_100_variables():
    legs = "".join(f"      l{n}: {{{','.join(f'v{m}: a' for m in range(100))}}}\n" for n in range(100))
    return bundle(f"jobs:\n- job: a\n  strategy:\n    matrix:\n{legs}  steps:\n  - script: a\n")


@shape(0, seed=False)
def jobs_256_each_on_all_before():
    text = "jobs:\n"
    for n in range(256):
        text += f"- job: n{n}\n  dependsOn: [{','.join(f'n{m}' for m in range(n))}]\n  steps:\n  - script: a\n"
    return bundle(text)


@shape(8, seed=False)
def a_cycle_of_256_jobs():
    text = "jobs:\n"
    for n in range(256):
        text += f"- job: n{n}\n  dependsOn: [{','.join(f'n{m}' for m in range(256) if m != n)}]\n  steps:\n  - script: a\n"
    return bundle(text[: FILE - 1000].rsplit("- job:", 1)[0] + "- job: z\n  dependsOn: n0\n  steps:\n  - script: a\n")


def of_loop(turns, form, item):
    return bundle(object_parameter(f"[{numbers(turns)}]") + f"{form}:\n- ${{{{ each x in parameters.l }}}}:\n  - {item}\n")


@shape(8)
def jobs_12000_by_a_loop():
    return of_loop(12_000, "jobs", "{job: 'j${{x}}', steps: [{script: a}]}")


@shape(8)
def stages_8000_by_a_loop():
    return of_loop(8_000, "stages", "{stage: 's${{x}}', jobs: [{job: a, steps: [{script: a}]}]}")


@shape(8)
def a_matrix_of_6000_legs():
    legs = "".join(f"      l{n}: {{v: a}}\n" for n in range(6_000))
    return bundle(f"jobs:\n- job: a\n  strategy:\n    matrix:\n{legs}  steps:\n  - script: a\n")


@shape(8)
def a_job_that_waits_for_30000_names():
    return bundle(f"jobs:\n- job: a\n  dependsOn: [{','.join(f'n{n}' for n in range(30_000))}]\n  steps:\n  - script: a\n")


@shape(0, 8)
def variables_20000_of_one_name():
    return bundle("variables:\n" + "- {name: v, value: a}\n" * 10_000 + "jobs:\n- job: a\n  variables:\n" + "  - {name: v, value: a}\n" * 900 + "  steps:\n  - script: a\n")


@shape(0)
def steps_2000_by_calls():
    return bundle("steps:\n" + CALL * 2_000, ("/t.yml", "steps:\n- script: a\n"))


@shape(8)
def steps_2001():
    return bundle("steps:\n" + "- script: a\n" * 2_001)


@shape(8)
def nodes_100001():
    return bundle(object_parameter(f"[{numbers(180)}]") + "steps:\n- ${{ each x in parameters.l }}:\n  - ${{ each y in parameters.l }}:\n    - a\n")


@shape(0, 8)
def repositories_7600():
    aliases = "".join(f"  - {{repository: r{n:05}, name: a}}\n" for n in range(7_600))
    return bundle("resources:\n  repositories:\n" + aliases + "steps:\n- script: a\n")


# ---- files


@shape(0, 9, seed=False)
def files_2700000_that_are_empty():
    return bundle("steps:\n- script: a\n") + "".join(f"%%% a refs/b /{n:08}\n" for n in range(2_700_000))


@shape(0, seed=False)
def files_10000_in_a_bundle():
    return bundle("steps:\n- script: a\n") + "".join(f"%%% a refs/b /{n:08}\n" for n in range(9_999))


@shape(0, seed=False)
def files_10001_in_a_bundle():
    return bundle("steps:\n- script: a\n") + "".join(f"%%% a refs/b /{n:08}\n" for n in range(10_000))


@shape(9, seed=False)
def a_file_that_stands_twice_behind_10000_others():
    return bundle("steps:\n- script: a\n") + "".join(f"%%% a refs/b /{n:08}\n" for n in range(9_998)) + "%%% a refs/b /00000000\n"


@shape(8, seed=False)
def nodes_of_100_files_of_262000_bytes():
    files = [(f"/t{n}.yml", "steps: [" + "a," * 130_000 + "]\n") for n in range(100)]
    return bundle("steps:\n- ${{ if 0 }}: []\n" + "".join(f"- template: t{n}.yml\n" for n in range(100)), *files)


@shape(8, seed=False)
def nodes_of_defaults_of_100_files():
    files = [(f"/t{n}.yml", object_parameter("[" + "a," * 130_000 + "]") + "steps:\n- script: a\n") for n in range(100)]
    return bundle("steps:\n" + "".join(f"- template: t{n}.yml\n" for n in range(100)), *files)


@shape(8, seed=False)
def pairs_of_defaults_of_100_files():
    pairs = ",".join(f"{n}:" for n in range(38_000))
    files = [(f"/t{n}.yml", object_parameter("{" + pairs + "}") + "steps:\n- script: a\n") for n in range(100)]
    return bundle("steps:\n" + "".join(f"- template: t{n}.yml\n" for n in range(100)), *files)


def hundred_files(text):
    files = [(f"/t{n}.yml", text) for n in range(100)]
    return bundle("steps:\n" + "".join(f"- template: t{n}.yml\n" for n in range(100)), *files)


@shape(0, seed=False)
def comments_of_100_files_of_262000_bytes():
    return hundred_files("steps:\n- script: a\n" + "# aaaaaa\n" * 29_000)


@shape(0, seed=False)
def block_scalars_of_100_files_of_262000_bytes():
    return hundred_files("steps:\n- script: |\n" + "    aaaaaaa\n" * 21_000)


@shape(0, seed=False)
def folded_scalars_of_100_files_of_262000_bytes():
    return hundred_files("steps:\n- script: >\n" + "    a\n" * 43_000)


@shape(0, seed=False)
def quoted_scalars_of_100_files_of_262000_bytes():
    return hundred_files("steps:\n- script: \"" + "\\x41" * 65_000 + "\"\n")


@shape(0, 8, seed=False)
def all_at_once_in_67108863_bytes():
    """A bundle as large as it may be, of whose files some are read and have many nodes, and texts that are made of them."""
    nodes = [(f"/t{n}.yml", "steps:\n- ${{ if 0 }}: [" + "a," * 120_000 + "]\n") for n in range(8)]
    steps = "".join(f"- template: t{n}.yml\n" for n in range(8)) + "- script: ${{parameters.t}}\n" * 260
    text = bundle(text_parameter(TEXT - 6) + "steps:\n" + steps, *nodes)
    text += "%%% a refs/b /c\n"
    return text + "a" * (WHOLE - 2 - len(text)) + "\n"


@shape(8, seed=False)
def a_root_of_262145_bytes():
    return bundle("steps:\n- script: " + "a" * (FILE - 17) + "\n")


@shape(0, seed=False)
def a_root_of_262144_bytes():
    return bundle("steps:\n- script: " + "a" * (FILE - 18) + "\n")


@shape(0, seed=False)
def a_bundle_of_67108863_bytes():
    text = bundle("steps:\n- script: a\n") + "%%% a refs/b /c\n"
    return text + "a" * (WHOLE - 2 - len(text)) + "\n"


@shape(10, seed=False)
def a_bundle_of_67108864_bytes():
    text = bundle("steps:\n- script: a\n") + "%%% a refs/b /c\n"
    return text + "a" * (WHOLE - 1 - len(text)) + "\n"


@shape(9, seed=False)
def bytes_67108863_that_are_no_bundle():
    return "a" * (WHOLE - 1)


@shape(9, seed=False)
def lines_67108863_that_are_no_bundle():
    return "\n" * (WHOLE - 1)


@shape(8)
def quotes_alone():
    return bundle("steps:\n- " + "'" * (FILE - 10) + "\n")


@shape(8)
def keys_20000_that_differ():
    return bundle("".join(f"key_{n:05}: 1\n" for n in range(18_000)))


# ---- near a limit, with the whole answer


def plan(*steps):
    """The plan of a pipeline of steps alone, by the file, the place and the way of each."""
    lines = ["stage __default depends [] lock runLatest uses [pool Default]", "job Job depends [] pool Default"]
    return "".join(f"{line}\n" for line in (*lines, *(f"step script {step}" for step in steps)))


def near(*steps, seed=True):
    return shape(0, seed=seed, wanted=plan(*steps))


@near("app refs/heads/main /ci.yml:2003:3 via")
def near_1000_parameters_declared():
    text = "parameters:\n" + "".join(f"- name: p{n}\n  default: a\n" for n in range(1_000))
    return bundle(text + "steps:\n- script: ${{ parameters.p999 }}\n")


@near("app refs/heads/main /t.yml:1003:3 via include", "app refs/heads/main /t.yml:1003:3 via include")
def near_1000_parameters_declared_in_2_calls():
    text = "parameters:\n" + "".join(f"- {{name: p{n}, default: a}}\n" for n in range(1_000)) + "steps:\n- script: ${{ parameters.p999 }}\n"
    return bundle("steps:\n" + CALL * 2, ("/t.yml", text))


@near("b refs/heads/main /t.yml:2:3 via include")
def near_1000_repositories():
    aliases = "".join(f"  - {{repository: r{n:03}, name: b}}\n" for n in range(1_000))
    text = bundle(f"resources:\n  repositories:\n{aliases}steps:\n- template: t.yml@r999\n")
    return text + "%%% b refs/heads/main /t.yml\nsteps:\n- script: a\n"


@near("app refs/heads/main /t.yml:22:43 via" + " include" * 12)
def near_500_open_nodes_over_calls():
    nested = nested_blocks(20, "${{if 1}}:", "")
    files = [(f"/t{n}.yml", f"steps:\n{nested}- template: t{n + 1}.yml\n") for n in range(10)]
    return bundle("steps:\n- template: t0.yml\n", *files, ("/t10.yml", f"steps:\n{nested}- template: t.yml\n"), ("/t.yml", f"steps:\n{nested}- script: a\n"))


@near("app refs/heads/main /t10.yml:5:5 via" + " include" * 11)
def near_20_mebibytes_by_doubling():
    double = "parameters:\n- name: t\nsteps:\n- template: t%d.yml\n  parameters:\n    t: ${{ parameters.t }}${{ parameters.t }}\n"
    files = [(f"/t{n}.yml", double % (n + 1)) for n in range(10)]
    last = "parameters:\n- name: t\nsteps:\n- ${{ if eq(length(parameters.t), 2560000) }}:\n  - script: a\n"
    return bundle(f"steps:\n- template: t0.yml\n  parameters:\n    t: {'a' * 2_500}\n", *files, ("/t10.yml", last))


@near("app refs/heads/main /ci.yml:5:5 via", seed=False)
def near_20_mebibytes_by_pieces():
    return bundle(text_parameter(TEXT - 6) + "steps:\n  - script: \"" + "${{parameters.t}}" * 150 + "\"\n")


@near("app refs/heads/main /ci.yml:11:3 via")
def near_all_work_by_conditions():
    return bundle(looped(560, "- ${{ if eq(length(split(parameters.t, ',')), 0) }}:\n    - script: a", with_text(8_000)) + "- script: b\n")


@near(*["app refs/heads/main /t.yml:203:3 via include"] * 900)
def near_all_work_by_900_calls_of_200_parameters():
    text = "parameters:\n" + "".join(f"- {{name: p{n}, default: a}}\n" for n in range(200)) + "steps:\n- script: a\n"
    return bundle("steps:\n" + CALL * 900, ("/t.yml", text))


@near(*[f"app refs/heads/main /t{n}.yml:2:3 via include" for n in range(31)], seed=False)
def near_8_mebibytes_of_files():
    text = "steps:\n- script: a\n"
    files = [(f"/t{n}.yml", text + "#" * (FILE - len(text) - 1) + "\n") for n in range(31)]
    return bundle("steps:\n" + "".join(f"- template: t{n}.yml\n" for n in range(31)), *files)


@near("app refs/heads/main /ci.yml:2:3 via", seed=False)
def near_10000_files():
    return files_10000_in_a_bundle()
