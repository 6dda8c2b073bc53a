# shellcheck shell=sh disable=SC2034
# What the scripts of this folder share. URL is where the service is; TOKENS a folder with a file for each principal's token.
URL=${URL:-http://127.0.0.1:8080}
TOKENS=${TOKENS:-tokens}
reply=$(mktemp)
trap 'rm -f "$reply"' EXIT

# ask WHO METHOD TARGET [BODY]: one message. Sets `status`, and leaves the reply's content in the file $reply. A BODY that begins with @
# is a file. curl is told to send a length also where nothing is sent, and not to wait for 100 Continue; the token goes by its standard
# input, so that no list of processes shows it.
ask() {
    who=$1 method=$2 target=$3
    shift 3
    set -- --data-binary "${1-}"
    [ "$method" = GET ] && set --
    : > "$reply"
    status=$(printf 'header = "Authorization: Bearer %s"\n' "$(cat "$TOKENS/$who")" |
        curl -sS -K - -o "$reply" -w '%{http_code}' -X "$method" -H 'Expect:' -H 'Content-Type:' "$@" "$URL$target")
}

# field NAME: the number or text of that name in the reply, the first one
field() {
    sed -n "s/.*\"$1\":\"\{0,1\}\([^,\"}]*\).*/\1/p" "$reply" | head -n 1
}
