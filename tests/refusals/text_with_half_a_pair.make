printf 'task a { } # \355\240\200'
