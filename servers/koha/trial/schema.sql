-- The part of Koha's schema that export and load use, for servers/try alone: from memory of release 23.11.
CREATE DATABASE koha DEFAULT CHARACTER SET utf8mb4 COLLATE utf8mb4_unicode_ci;
USE koha;
CREATE TABLE categories (categorycode varchar(10) PRIMARY KEY, description longtext);
CREATE TABLE branches (branchcode varchar(10) PRIMARY KEY, branchname longtext NOT NULL);
CREATE TABLE borrowers (borrowernumber int AUTO_INCREMENT PRIMARY KEY, cardnumber varchar(32) UNIQUE, surname longtext, firstname mediumtext,
    branchcode varchar(10) NOT NULL DEFAULT '', categorycode varchar(10) NOT NULL DEFAULT '', dateexpiry date, gonenoaddress tinyint(1), lost tinyint(1),
    debarred date, debarredcomment varchar(255), FOREIGN KEY (categorycode) REFERENCES categories (categorycode));
CREATE TABLE borrower_debarments (borrower_debarment_id int AUTO_INCREMENT PRIMARY KEY, borrowernumber int NOT NULL, expiration date,
    type varchar(50) NOT NULL DEFAULT 'MANUAL', comment mediumtext, FOREIGN KEY (borrowernumber) REFERENCES borrowers (borrowernumber));
CREATE TABLE biblio (biblionumber int AUTO_INCREMENT PRIMARY KEY, title longtext);
CREATE TABLE items (itemnumber int AUTO_INCREMENT PRIMARY KEY, biblionumber int NOT NULL, barcode varchar(20) UNIQUE, homebranch varchar(10), itype varchar(10),
    onloan date, itemnotes longtext, FOREIGN KEY (biblionumber) REFERENCES biblio (biblionumber));
CREATE TABLE issues (issue_id int AUTO_INCREMENT PRIMARY KEY, borrowernumber int NOT NULL, itemnumber int NOT NULL UNIQUE, date_due datetime, branchcode varchar(10),
    returndate datetime, lastreneweddate datetime, renewals_count tinyint NOT NULL DEFAULT 0, issuedate datetime, note longtext,
    FOREIGN KEY (borrowernumber) REFERENCES borrowers (borrowernumber), FOREIGN KEY (itemnumber) REFERENCES items (itemnumber));
-- its columns are in another order, as they may after upgrades
CREATE TABLE old_issues (issue_id int PRIMARY KEY, itemnumber int, borrowernumber int, branchcode varchar(10), date_due datetime,
    returndate datetime, issuedate datetime, lastreneweddate datetime, renewals_count tinyint NOT NULL DEFAULT 0, note longtext);
CREATE TABLE accountlines (accountlines_id int AUTO_INCREMENT PRIMARY KEY, issue_id int, borrowernumber int, itemnumber int, date timestamp NULL,
    amount decimal(28,6), description longtext, credit_type_code varchar(80), debit_type_code varchar(80), status varchar(16), amountoutstanding decimal(28,6),
    note mediumtext, interface varchar(16) NOT NULL, FOREIGN KEY (borrowernumber) REFERENCES borrowers (borrowernumber));
CREATE TABLE account_offsets (id int AUTO_INCREMENT PRIMARY KEY, credit_id int, debit_id int, type varchar(16) NOT NULL, amount decimal(26,6) NOT NULL,
    FOREIGN KEY (credit_id) REFERENCES accountlines (accountlines_id), FOREIGN KEY (debit_id) REFERENCES accountlines (accountlines_id));
CREATE TABLE reserves (reserve_id int AUTO_INCREMENT PRIMARY KEY, borrowernumber int NOT NULL, reservedate date, biblionumber int NOT NULL, branchcode varchar(10),
    cancellationdate date, priority smallint NOT NULL DEFAULT 1, found varchar(1), itemnumber int, waitingdate date, suspend tinyint(1) NOT NULL DEFAULT 0,
    FOREIGN KEY (borrowernumber) REFERENCES borrowers (borrowernumber), FOREIGN KEY (branchcode) REFERENCES branches (branchcode));
CREATE TABLE old_reserves LIKE reserves;
