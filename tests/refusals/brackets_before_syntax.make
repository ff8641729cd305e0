printf '; '; printf '(%.0s' {1..129}
