CREATE TABLE `orders_0` (
  `id` BIGINT NOT NULL,
  `customer` INT NOT NULL,
  `city` VARCHAR(40) NOT NULL,
  `note` VARCHAR(120),
  PRIMARY KEY (`id`)
);
INSERT INTO `orders_0` VALUES
  (1000000004, 17, 'Dublin', NULL),
  (1000000008, 3, 'Newcastle upon Tyne', 'Leave it at No. 4\nRing twice');
INSERT INTO `orders_0` VALUES
  (1000000012, 17, 'St. John\'s', 'customer said: "after six"');
