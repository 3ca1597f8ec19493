-- What the scripts find on the server.
CREATE DATABASE shop CHARACTER SET utf8mb4;
USE shop;
CREATE USER alice@'127.0.0.1' IDENTIFIED BY 'secret';
CREATE USER killed@'127.0.0.1';
CREATE USER bob@'127.0.0.1';
GRANT ALL ON shop.* TO alice@'127.0.0.1';
GRANT ALL ON *.* TO killed@'127.0.0.1';
CREATE TABLE many (n INT NOT NULL PRIMARY KEY);
INSERT INTO many SELECT seq FROM seq_1_to_10000;
CREATE TABLE types (
  a TINYINT, b TINYINT UNSIGNED, c SMALLINT, d MEDIUMINT, e INT, f BIGINT, g BIGINT UNSIGNED,
  h DECIMAL(10,3), i FLOAT, j DOUBLE, k BIT(10), l YEAR, m DATE, n TIME(3), o DATETIME(6), p TIMESTAMP NULL,
  q CHAR(5), r VARCHAR(20), s BINARY(3), t VARBINARY(9), u BLOB, v TEXT, w ENUM('red', 'green'), x SET('a', 'b', 'c'),
  y JSON, z INT(6) ZEROFILL
);
INSERT INTO types VALUES (
  -128, 255, -32768, 8388607, -2147483648, -9223372036854775808, 18446744073709551615,
  -1234567.125, 1.5, -0.25, b'1000000001', 2026, '2024-02-29', '-838:59:58.125', '9999-12-31 23:59:59.999999', '2001-02-03 04:05:06',
  'ab', 'grüß', 'x', '\0\'\n', 'blob', 'text', 'green', 'a,c', '{"a": [1, null]}', 42
), (
  NULL, NULL, NULL, NULL, NULL, NULL, NULL, NULL, NULL, NULL, NULL, NULL, NULL, NULL, NULL, NULL, NULL, NULL, NULL, NULL, NULL, NULL,
  NULL, NULL, NULL, NULL
), (
  0, 0, 0, 0, 0, 0, 0, 0, 0, 0, b'0', 0, '0001-01-01', '0:0:0', '0001-01-01 00:00:00', '1970-01-02 00:00:00',
  '', '', '', '', '', '', 'red', '', 'null', 0
);
