-- Prints the schema text of a table of MySQL 5.7, or of MariaDB 10 (tried on 10.11), roots included:
--
--     mysql -N -B -r --init-command="SET @schema_name = 'shop', @table_name = 'orders'" \
--         < examples/schema.sql > orders.schema
--
-- With `@partition_name = 'p0'` besides it is that of the partition's file. It needs the right PROCESS, and rights on
-- the table; where there is no such table it ends with an error. For what isn't served it prints a line that begins
-- with `not served`, in the place of the table, the column or the index. `ibd` refuses a text that has such a line
-- (`schema line LINE form`), and with `grep 'not served' orders.schema` they are all seen.

-- The names of an index's columns are put together, up to 16 of 64 characters, and all names that are changed.
SET SESSION group_concat_max_len = 262144;
SET @schema_name = CONVERT(COALESCE(@schema_name, DATABASE()) USING utf8);
SET @table_name = CONVERT(COALESCE(@table_name, '') USING utf8);
-- Without such a table this is an error.
SET @looks = CONCAT('SELECT 1 FROM `', REPLACE(@schema_name, '`', '``'), '`.`', REPLACE(@table_name, '`', '``'),
    '` LIMIT 0');
PREPARE looks FROM @looks;
DEALLOCATE PREPARE looks;
-- InnoDB spells names as a file's name does; the server puts `@@@` after those of devices.
SET @devices = '^(aux|clock[$]|con|nul|prn|(com|lpt)[1-9])$';
SET @stored_name = CONCAT(
    CONVERT(CONVERT(@schema_name USING filename) USING binary), IF(@schema_name REGEXP @devices, '@@@', ''), '/',
    CONVERT(CONVERT(@table_name USING filename) USING binary), IF(@table_name REGEXP @devices, '@@@', ''),
    COALESCE(CONCAT('#P#', REPLACE(CONVERT(CONVERT(CONVERT(@partition_name USING utf8) USING filename) USING binary),
        '@0023SP@0023', '#SP#')), ''));
SET @table_id = (SELECT TABLE_ID FROM information_schema.INNODB_SYS_TABLES WHERE BINARY NAME = @stored_name);
-- What stands in no name.
SET @zero = CONVERT(CHAR(0) USING utf8);
-- Another character than A-Z a-z 0-9 _ $ in a name is `$` and its code in four hexadecimal digits here, and the end of
-- what is too long then is `$` and the CRC-32 of the name. This has each such name and what it becomes, which is
-- nothing where it would be another's.
SET @new_names = (SELECT COALESCE(GROUP_CONCAT(@zero, name, @zero, IF(is_taken, '', new_name) SEPARATOR ''), '') FROM (
    SELECT name, new_name, (
        SELECT COUNT(*) FROM information_schema.INNODB_SYS_COLUMNS o WHERE o.TABLE_ID = @table_id
            AND LOWER(o.NAME) = LOWER(new_name)
    ) + (
        SELECT COUNT(*) FROM information_schema.INNODB_SYS_INDEXES o WHERE o.TABLE_ID = @table_id
            AND LOWER(o.NAME) = LOWER(new_name)
    ) > 0 AS is_taken
    FROM (
        SELECT name, IF(CHAR_LENGTH(spelled) > 64,
            CONCAT(LEFT(spelled, 55), '$', LPAD(LOWER(HEX(CRC32(name))), 8, '0')), spelled) AS new_name
        FROM (
            SELECT name, GROUP_CONCAT(IF(BINARY SUBSTRING(name, place, 1) REGEXP '^[A-Za-z0-9_$]$',
                SUBSTRING(name, place, 1),
                CONCAT('$', LOWER(HEX(CONVERT(SUBSTRING(name, place, 1) USING ucs2)))))
                ORDER BY place SEPARATOR '') AS spelled
            FROM (
                SELECT @table_name AS name
                UNION DISTINCT SELECT CONVERT(COLUMN_NAME USING utf8) FROM information_schema.COLUMNS
                    WHERE TABLE_SCHEMA = @schema_name AND TABLE_NAME = @table_name
                UNION DISTINCT SELECT CONVERT(NAME USING utf8) FROM information_schema.INNODB_SYS_INDEXES
                    WHERE TABLE_ID = @table_id
            ) AS names
            JOIN (
                SELECT low.digit + 8 * high.digit + 1 AS place
                FROM (SELECT 0 AS digit UNION ALL SELECT 1 UNION ALL SELECT 2 UNION ALL SELECT 3 UNION ALL SELECT 4
                    UNION ALL SELECT 5 UNION ALL SELECT 6 UNION ALL SELECT 7) AS low
                JOIN (SELECT 0 AS digit UNION ALL SELECT 1 UNION ALL SELECT 2 UNION ALL SELECT 3 UNION ALL SELECT 4
                    UNION ALL SELECT 5 UNION ALL SELECT 6 UNION ALL SELECT 7) AS high
            ) AS places ON place <= CHAR_LENGTH(name)
            WHERE BINARY name NOT REGEXP '^[A-Za-z0-9_$]{1,64}$'
            GROUP BY BINARY name, name
        ) AS spelled_names
    ) AS new_names
) AS checked_names);

SELECT line FROM (
    -- The table's line.
    SELECT 0 AS part, 0 AS kind, 0 AS place, CASE
        WHEN s.TABLE_ID IS NULL THEN CONCAT('not served: table `', @table_name,
            '`: no table of InnoDB has this name, or it has partitions, and @partition_name names none of them')
        WHEN s.SPACE_TYPE <> 'Single' THEN CONCAT('not served: table `', @table_name, '`: in a shared tablespace')
        WHEN s.ROW_FORMAT NOT IN ('Dynamic', 'Compact') THEN CONCAT('not served: table `', @table_name,
            '`: ROW_FORMAT ', s.ROW_FORMAT)
        WHEN t.CREATE_OPTIONS REGEXP
            'compression="(zlib|lz4)|encryption="y|page_compressed`?=.?(1|on)|encrypted`?=.?yes'
            THEN CONCAT('not served: table `', @table_name, '`: ', t.CREATE_OPTIONS)
        -- Virtual columns have greater numbers, and no place in the file.
        WHEN (SELECT COUNT(*) FROM information_schema.INNODB_SYS_COLUMNS k
              WHERE k.TABLE_ID = @table_id AND k.POS < 65536) > 64
            THEN CONCAT('not served: table `', @table_name, '`: more than 64 columns')
        WHEN (SELECT COUNT(*) FROM information_schema.INNODB_SYS_INDEXES i
              WHERE i.TABLE_ID = @table_id AND i.TYPE <> 32) > 16
            THEN CONCAT('not served: table `', @table_name, '`: more than 15 indexes besides the clustered one')
        ELSE CONCAT('table ', IF(BINARY @table_name REGEXP '^[A-Za-z0-9_$]{1,64}$', @table_name, SUBSTRING_INDEX(
            SUBSTRING_INDEX(@new_names, CONCAT(@zero, @table_name, @zero), -1), @zero, 1)), ' ', LOWER(s.ROW_FORMAT))
    END AS line
    FROM (SELECT 1 AS one) AS row_of_one
    LEFT JOIN information_schema.INNODB_SYS_TABLES s ON s.TABLE_ID = @table_id
    LEFT JOIN information_schema.TABLES t ON t.TABLE_SCHEMA = @schema_name AND t.TABLE_NAME = @table_name
        AND BINARY t.TABLE_SCHEMA = BINARY @schema_name AND BINARY t.TABLE_NAME = BINARY @table_name

    UNION ALL

    -- A line for each column.
    SELECT 1, 0, place, CASE
        WHEN name = '' THEN CONCAT('not served: column `', real_name,
            '`: its name would be that of another one here; write another one')
        WHEN EXTRA REGEXP 'INVISIBLE' OR COLUMN_TYPE LIKE '%COMPRESSED%' THEN CONCAT('not served: column `', real_name,
            '`: ', COLUMN_TYPE, ' ', EXTRA)
        -- A moment of the servers before 5.6 is an integer to InnoDB.
        WHEN DATA_TYPE IN ('datetime', 'timestamp') AND MTYPE = 6 OR COLUMN_TYPE LIKE '%/* mariadb-5.3 */%'
            THEN CONCAT('not served: column `', real_name, '`: a ', DATA_TYPE, ' of the form before 5.6')
        WHEN DATA_TYPE = 'decimal' AND NUMERIC_PRECISION > 38 THEN CONCAT('not served: column `', real_name,
            '`: a decimal of more than 38 digits')
        WHEN DATA_TYPE = 'char' AND MAXLEN > 1 THEN CONCAT('not served: column `', real_name, '`: char of ',
            CHARACTER_SET_NAME, ', which has more than one byte a character')
        WHEN DATA_TYPE = 'bit' AND LEN BETWEEN 5 AND 7 THEN CONCAT('not served: column `', real_name, '`: bit of ', LEN,
            ' bytes, which no integer has')
        WHEN DATA_TYPE IN ('char', 'varchar', 'binary', 'varbinary') AND CHARACTER_MAXIMUM_LENGTH = 0
            OR COLUMN_TYPE = 'year(2)'
            THEN CONCAT('not served: column `', real_name, '`: ', COLUMN_TYPE)
        WHEN DATA_TYPE NOT IN ('tinyint', 'smallint', 'mediumint', 'int', 'bigint', 'date', 'year', 'datetime',
            'timestamp', 'decimal', 'char', 'varchar', 'binary', 'varbinary', 'tinytext', 'text', 'mediumtext',
            'longtext', 'tinyblob', 'blob', 'mediumblob', 'longblob', 'enum', 'set', 'bit')
            THEN CONCAT('not served: column `', real_name, '`: ', DATA_TYPE)
        ELSE CONCAT('column ', name, ' ', CASE
            -- InnoDB keeps the number of the member, a bit for each member, or the bits.
            WHEN DATA_TYPE IN ('enum', 'set', 'bit')
                THEN CONCAT(ELT(LEN, 'tinyint', 'smallint', 'mediumint', 'int', '', '', '', 'bigint'), ' unsigned')
            WHEN DATA_TYPE LIKE '%int' AND COLUMN_TYPE LIKE '%unsigned%' THEN CONCAT(DATA_TYPE, ' unsigned')
            WHEN DATA_TYPE IN ('datetime', 'timestamp') THEN CONCAT(DATA_TYPE, ' ', DATETIME_PRECISION)
            WHEN DATA_TYPE = 'decimal' THEN CONCAT('decimal ', NUMERIC_PRECISION, ' ', NUMERIC_SCALE)
            WHEN DATA_TYPE IN ('char', 'binary', 'varbinary') THEN CONCAT(DATA_TYPE, ' ', CHARACTER_MAXIMUM_LENGTH)
            -- Another character set than utf8mb4 is read as bytes.
            WHEN DATA_TYPE = 'varchar' AND CHARACTER_SET_NAME = 'utf8mb4'
                THEN CONCAT('varchar ', CHARACTER_MAXIMUM_LENGTH, ' utf8mb4')
            WHEN DATA_TYPE = 'varchar' THEN CONCAT('varchar ', CHARACTER_OCTET_LENGTH)
            WHEN CHARACTER_SET_NAME = 'utf8mb4' THEN CONCAT(DATA_TYPE, ' utf8mb4')
            ELSE DATA_TYPE END,
            IF(IS_NULLABLE = 'YES', ' null', ' notnull'))
    END
    FROM (
        SELECT c.*, c.ORDINAL_POSITION AS place, m.MAXLEN, k.MTYPE, k.LEN, c.COLUMN_NAME AS real_name,
            IF(BINARY c.COLUMN_NAME REGEXP '^[A-Za-z0-9_$]{1,64}$', c.COLUMN_NAME, SUBSTRING_INDEX(
                SUBSTRING_INDEX(@new_names, CONCAT(@zero, c.COLUMN_NAME, @zero), -1), @zero, 1)) AS name
        FROM information_schema.COLUMNS c
        LEFT JOIN information_schema.CHARACTER_SETS m ON m.CHARACTER_SET_NAME = c.CHARACTER_SET_NAME
        LEFT JOIN information_schema.INNODB_SYS_COLUMNS k ON k.TABLE_ID = @table_id
            AND BINARY LOWER(k.NAME) = BINARY LOWER(c.COLUMN_NAME)
        WHERE c.TABLE_SCHEMA = @schema_name AND c.TABLE_NAME = @table_name
            AND BINARY c.TABLE_SCHEMA = BINARY @schema_name AND BINARY c.TABLE_NAME = BINARY @table_name
            -- A virtual column is kept in no row.
            AND c.EXTRA NOT REGEXP 'VIRTUAL'
    ) AS shown_columns

    UNION ALL

    -- Columns that InnoDB has, and the table doesn't show: that of the numbers which a full-text index has.
    SELECT 1, 1, 0, IF(k.NAME = 'FTS_DOC_ID', 'column FTS_DOC_ID bigint unsigned notnull',
        CONCAT('not served: hidden column `', k.NAME, '`'))
    FROM information_schema.INNODB_SYS_COLUMNS k
    LEFT JOIN information_schema.COLUMNS c ON c.TABLE_SCHEMA = @schema_name AND c.TABLE_NAME = @table_name
        AND BINARY c.TABLE_NAME = BINARY @table_name AND BINARY LOWER(c.COLUMN_NAME) = BINARY LOWER(k.NAME)
    WHERE k.TABLE_ID = @table_id AND c.COLUMN_NAME IS NULL

    UNION ALL

    -- A line for each index, in the order of SHOW CREATE TABLE: the clustered one, the unique ones without a column
    -- that may be null, the other unique ones, and the others; each of these kinds as they were made. The hidden one of
    -- a full-text index comes after the clustered one; a full-text index itself isn't in the file.
    SELECT 2, kind, INDEX_ID, CASE
        WHEN TYPE NOT IN (0, 1, 2, 3) THEN CONCAT('not served: spatial index `', real_name, '`')
        WHEN virtual_name IS NOT NULL THEN CONCAT('not served: index `', real_name, '`: column `', virtual_name,
            '` is virtual, and kept in no row')
        WHEN prefix_name IS NOT NULL THEN CONCAT('not served: index `', real_name, '`: only the front of column `',
            prefix_name, '`')
        WHEN descending_name IS NOT NULL THEN CONCAT('not served: index `', real_name, '`: column `', descending_name,
            '` DESC')
        -- Texts are ordered by their bytes, the shorter one filled with spaces.
        WHEN text_name IS NOT NULL THEN CONCAT('not served: index `', real_name, '`: column `', text_name,
            '` has a collation that doesn''t order by bytes')
        WHEN TYPE IN (1, 3) THEN CONCAT('clustered root ', PAGE_NO, COALESCE(CONCAT(' ', names), ''))
        WHEN name = '' THEN CONCAT('not served: index `', real_name,
            '`: its name would be that of another one here; write another one')
        ELSE CONCAT('index ', name, ' root ', PAGE_NO, ' ', names)
    END
    FROM (
        SELECT i.INDEX_ID, i.TYPE, i.PAGE_NO, i.NAME AS real_name,
            IF(BINARY i.NAME REGEXP '^[A-Za-z0-9_$]{1,64}$', i.NAME, SUBSTRING_INDEX(
                SUBSTRING_INDEX(@new_names, CONCAT(@zero, i.NAME, @zero), -1), @zero, 1)) AS name,
            CASE
                WHEN i.TYPE IN (1, 3) OR SUM(f.NAME = 'FTS_DOC_ID' AND c.COLUMN_NAME IS NULL) > 0 THEN 0
                WHEN i.TYPE <> 2 THEN 3
                WHEN SUM(c.IS_NULLABLE = 'YES') > 0 THEN 2
                ELSE 1
            END AS kind,
            MAX(IF(c.EXTRA REGEXP 'VIRTUAL', f.NAME, NULL)) AS virtual_name,
            MAX(IF(x.SUB_PART IS NOT NULL, f.NAME, NULL)) AS prefix_name,
            MAX(IF(x.COLLATION = 'D', f.NAME, NULL)) AS descending_name,
            MAX(IF(c.DATA_TYPE IN ('char', 'varchar') AND (RIGHT(c.COLLATION_NAME, 4) <> '_bin'
                OR c.COLLATION_NAME LIKE '%nopad%' OR m.MAXLEN > 1 AND c.CHARACTER_SET_NAME NOT IN ('big5', 'cp932',
                    'eucjpms', 'euckr', 'gb2312', 'gbk', 'sjis', 'ujis', 'utf8', 'utf8mb3', 'utf8mb4')),
                f.NAME, NULL)) AS text_name,
            GROUP_CONCAT(IF(BINARY f.NAME REGEXP '^[A-Za-z0-9_$]{1,64}$', f.NAME, SUBSTRING_INDEX(
                SUBSTRING_INDEX(@new_names, CONCAT(@zero, f.NAME, @zero), -1), @zero, 1))
                ORDER BY f.POS SEPARATOR ' ') AS names
        FROM information_schema.INNODB_SYS_INDEXES i
        LEFT JOIN information_schema.INNODB_SYS_FIELDS f ON f.INDEX_ID = i.INDEX_ID
        LEFT JOIN information_schema.COLUMNS c ON c.TABLE_SCHEMA = @schema_name AND c.TABLE_NAME = @table_name
            AND BINARY c.TABLE_SCHEMA = BINARY @schema_name AND BINARY c.TABLE_NAME = BINARY @table_name
            AND BINARY LOWER(c.COLUMN_NAME) = BINARY LOWER(f.NAME)
        LEFT JOIN information_schema.CHARACTER_SETS m ON m.CHARACTER_SET_NAME = c.CHARACTER_SET_NAME
        LEFT JOIN information_schema.STATISTICS x ON x.TABLE_SCHEMA = @schema_name AND x.TABLE_NAME = @table_name
            AND BINARY x.TABLE_SCHEMA = BINARY @schema_name AND BINARY x.TABLE_NAME = BINARY @table_name
            AND BINARY x.INDEX_NAME = BINARY i.NAME
            AND BINARY LOWER(x.COLUMN_NAME) = BINARY LOWER(f.NAME)
        WHERE i.TABLE_ID = @table_id AND i.TYPE <> 32
        GROUP BY i.INDEX_ID, i.NAME, i.TYPE, i.PAGE_NO
    ) AS shown_indexes
) AS lines_of_text
ORDER BY part, kind, place;
