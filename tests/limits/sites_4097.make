# a site for each test, operator, conversion, member and index, one for new with a target, two for a member call: ten a round
echo "fn f(o, i) {"
for i in $(seq 409); do
  echo "if true { (i + 1); (!nil); } while false { text(i); } o.x; o[i]; new(f, o); o.m();"
done
echo "o.x; o.x; o[i]; delete o.x; o.x = 1; o.m(); }"
