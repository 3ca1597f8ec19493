-- What rounds of my_examples read: 100,000 rows, the same on each server.
CREATE DATABASE bench CHARACTER SET utf8mb4;
USE bench;
CREATE TABLE t100k (
  id INT NOT NULL PRIMARY KEY, name VARCHAR(40) NOT NULL, ts DATETIME NOT NULL, val DOUBLE NOT NULL,
  price DECIMAL(10,2) NOT NULL
);
INSERT INTO t100k
  SELECT seq, CONCAT('name-', seq), '2024-01-01 00:00:00' + INTERVAL seq SECOND, seq / 8, seq / 100
  FROM seq_1_to_100000;
