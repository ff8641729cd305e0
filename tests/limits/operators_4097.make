# 4,097 sums
printf 'task a {'
printf ' print (1 + 2);%.0s' {1..4097}
printf ' }'
