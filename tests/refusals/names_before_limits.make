for i in $(seq 65); do echo "shared s$i;"; done; echo 'task a { print x; }'
