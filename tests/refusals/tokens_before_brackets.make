printf '(%.0s' {1..200}; printf ' 007'
