echo 'task a { print x; print }'
