CREATE TABLE `orders_1` (
  `id` BIGINT NOT NULL,
  `customer` INT NOT NULL,
  `city` VARCHAR(40) NOT NULL,
  `note` VARCHAR(120),
  PRIMARY KEY (`id`)
);
INSERT INTO `orders_1` VALUES
  (1000000001, 42, 'Graz', 'C:\\labels\\42.txt'),
  (1000000005, 8, 'L''Aquila', NULL),
  (1000000009, -1, 'Oslo', '');
