echo '# mysql://root@127.0.0.1:PORT'
echo conn
echo "query 0 SELECT $(seq -s , 1 4000)"
printf 'next 0\nnext 0\n'
echo "prep 0 SELECT $(seq -s , 1 4000)"
printf 'exec 0 0\nnext 0\nquit 0\n'
