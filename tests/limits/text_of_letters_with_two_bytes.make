# 32,769 letters, 65,538 bytes
printf 'task a { print "'; printf 'é%.0s' $(seq 32769); printf '"; }'
