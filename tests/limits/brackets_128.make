# a brace and 127 parentheses stand open
printf 'task a { print '
printf '(%.0s' {1..127}
printf '1'
printf ' + 1)%.0s' {1..127}
printf '; }'
