# a brace and 128 parentheses stand open
printf 'task a { print '
printf '(%.0s' {1..128}
printf '1'
printf ' + 1)%.0s' {1..128}
printf '; }'
