echo "What is taken is given back,"
echo "once, and in time,"

echo "also when an exception passes."
