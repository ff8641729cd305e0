name=$(printf "m%.0s" $(seq 64))
echo "shared s; task a { s.$name = 3; print s.$name; }"
