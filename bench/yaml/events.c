/* Reads a YAML text from the standard input once, with libyaml's event parser. The status is 0 where it has no fault. */
#include <stdio.h>
#include <stdlib.h>
#include <yaml.h>

static unsigned char text[1 << 20];

int main(void) {
    size_t size = fread(text, 1, sizeof text, stdin);
    yaml_parser_t parser;
    yaml_event_t event;
    int last = 0;
    if (!yaml_parser_initialize(&parser)) return 2;
    yaml_parser_set_input_string(&parser, text, size);
    while (!last) {
        if (!yaml_parser_parse(&parser, &event)) return 1;
        last = event.type == YAML_STREAM_END_EVENT;
        yaml_event_delete(&event);
    }
    yaml_parser_delete(&parser);
    return 0;
}
