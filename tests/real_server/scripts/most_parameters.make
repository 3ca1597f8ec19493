# 65,535 parameters, the most that a statement may have, and one more.
echo '# mysql://root@127.0.0.1:PORT'
echo conn
marks=$(yes '?' | head -n 65535 | paste -s -d ,)
echo "prep 0 SELECT MAX(n) FROM (SELECT 65535 IN ($marks) AS n) AS t"
echo "exec 0 0 $(seq -s ' ' 1 65535 | sed 's/[0-9]*/i:&/g')"
echo 'collect 0'
echo "exec 0 0 $(seq -s ' ' 0 65534 | sed 's/[0-9]*/i:&/g')"
echo 'collect 0'
echo "prep 0 SELECT ?,$marks"
echo 'quit 0'
