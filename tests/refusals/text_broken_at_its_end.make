printf 'task a { print "\303'
