# a brace, 40 braces of if, and 88 brackets: the last of them is token 4 + 3 * 40 + 2 * 87
printf 'task a { '
printf 'if true { %.0s' {1..40}
printf 'nil'; printf '[nil%.0s' {1..88}; printf ']%.0s' {1..88}; printf '; '
printf '} %.0s' {1..40}
printf '}'
