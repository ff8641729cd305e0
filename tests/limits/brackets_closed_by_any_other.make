# a closing bracket of any form closes the last one, so no more than one stands open, and with none open it changes nothing
printf '%.0s(]' {1..200}; printf ')}]'; printf '%.0s{)' {1..200}
