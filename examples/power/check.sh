while read -r n; do
  grep -q "record $n" log || { echo "record $n is lost"; exit 1; }
done
