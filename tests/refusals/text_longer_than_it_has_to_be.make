printf '\300\200'
