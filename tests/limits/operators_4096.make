# 4,096 sums
printf 'task a {'
printf ' print (1 + 2);%.0s' {1..4096}
printf ' }'
