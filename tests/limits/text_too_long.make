# a script and blanks, 1,048,577 bytes in all
printf 'task a { print 1; }'
head -c 1048558 /dev/zero | tr '\0' ' '
