printf 'task a { print "'; head -c 65534 /dev/zero | tr "\0" x; printf '\\n\\""; }'
