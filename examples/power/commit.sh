for n in 1 2 3; do
  echo "record $n" >> log
  [ $n = 2 ] || sync log
  echo $n
done
