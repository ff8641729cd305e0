# a brace, and 127 brackets of the three kinds in turn
printf 'task a { '
printf '(%.0s' {1..43}; printf 'nil'; printf ' + 1)%.0s' {1..43}; printf '; '
printf 'if true { %.0s' {1..40}
printf 'nil'; printf '[nil%.0s' {1..87}; printf ']%.0s' {1..87}; printf '; '
printf '} %.0s' {1..40}
printf '}'
