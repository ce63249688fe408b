# For scripts that run node.

# options_of_node: prints the option that an older node needs for sockets
options_of_node() {
    node --experimental-websocket -e 0 >/dev/null 2>&1 && echo --experimental-websocket
}
