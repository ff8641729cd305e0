# a script and blanks, 1,048,576 bytes in all
printf 'task a { print 1; }'
head -c 1048557 /dev/zero | tr '\0' ' '
