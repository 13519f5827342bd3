-- The third shard, as mysqldump writes one: it has a column that the other two lack.
/*!40101 SET NAMES utf8mb4 */;
DROP TABLE IF EXISTS `orders_2`;
CREATE TABLE `orders_2` (
  `id` bigint(20) NOT NULL AUTO_INCREMENT,
  `customer` int(11) NOT NULL,
  `city` varchar(40) NOT NULL,
  `note` varchar(120) DEFAULT NULL,
  `price` decimal(8,2) NOT NULL DEFAULT 0.00,
  PRIMARY KEY (`id`),
  KEY `by_city` (`city`)
) ENGINE=InnoDB AUTO_INCREMENT=1000000007 DEFAULT CHARSET=utf8mb4;
LOCK TABLES `orders_2` WRITE;
INSERT INTO `orders_2` VALUES
  (1000000002,3,'Newcastle upon Tyne',NULL,12.50),
  (1000000006,91,'Porto','It\'s a gift',7.00);
UNLOCK TABLES;
