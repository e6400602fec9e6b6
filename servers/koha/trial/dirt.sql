-- Ordinary dirt, besides the library day. What becomes of each row is in ../../trial (base, run) and in base, run and told.csv here.
SET NAMES utf8mb4;
SET SESSION sql_mode = 'NO_BACKSLASH_ESCAPES,STRICT_TRANS_TABLES';
INSERT INTO categories (categorycode) VALUES ('SENIOR');
-- quotes, a comma, an apostrophe; a class in other letters than in its own table
INSERT INTO borrowers (borrowernumber, cardnumber, firstname, surname, categorycode) VALUES (9001, 'D0001', 'Zoë "Zed"', 'O''Brien, the 2nd', 'ADULT');
-- no card, but a loan, a fee and a hold
INSERT INTO borrowers (borrowernumber, cardnumber, surname, categorycode) VALUES (9002, NULL, 'Cardless', 'adult');
-- no name; the block ended on the base's day
INSERT INTO borrowers (borrowernumber, cardnumber, categorycode, debarred) VALUES (9003, 'D0003', 'adult', '2026-03-07');
-- umlauts; blocked on the base's day, and no longer today
INSERT INTO borrowers (borrowernumber, cardnumber, firstname, surname, categorycode, debarred) VALUES (9004, 'D0004', 'Jürgen', 'Müller-Lüdenscheidt', 'adult', '2026-03-08');
INSERT INTO borrower_debarments (borrowernumber, expiration) VALUES (9004, '2026-03-08');
-- line ends and bars
INSERT INTO borrowers (borrowernumber, cardnumber, firstname, surname, categorycode)
    VALUES (9005, 'D0005', CONCAT('Bar|Name', CHAR(13), CHAR(10), 'Line'), CONCAT('End', CHAR(10), 'Last'), 'adult');
INSERT INTO borrowers (borrowernumber, cardnumber, firstname, surname, categorycode) VALUES (9006, 'D0006', '太郎', '山田', 'adult');
INSERT INTO borrowers (borrowernumber, cardnumber, surname, categorycode) VALUES (9007, 'D|07', 'Bar', 'adult');
-- a card that has ended; a class that the maps rename
INSERT INTO borrowers (borrowernumber, cardnumber, surname, categorycode, dateexpiry) VALUES (9008, 'D0008', 'Ended', 'adult', '2026-03-06');
INSERT INTO borrowers (borrowernumber, cardnumber, surname, categorycode) VALUES (9009, 'D0009', 'Senior', 'SENIOR');

INSERT INTO biblio VALUES (9001, NULL), (9002, 'He said "no", twice'), (9003, CONCAT('A line', CHAR(10), 'end and | a bar')), (9004, '日本語の本'), (9005, 'No barcode'),
    (9006, 'A toy'), (9007, REPEAT('ü', 600)), (9008, 'C:\new\table'), (9009, 'Overdue 9'), (9010, 'Overdue 10'), (9011, 'Overdue 11'), (9012, 'Overdue 12'), (9013, 'Asked for'), (9014, 'Back and out again');
INSERT INTO items (itemnumber, biblionumber, barcode, homebranch, itype) VALUES (9001, 9001, 'J0001', NULL, 'BOOK'), (9002, 9002, 'J0002', 'Main', 'BOOK'),
    (9003, 9003, 'J0003', 'Main', 'BOOK'), (9004, 9004, 'J0004', 'Main', 'BOOK'), (9005, 9005, NULL, 'Main', 'BOOK'), (9006, 9006, 'J0006', 'Main', 'TOY'),
    (9007, 9007, 'J0007', 'Main', 'BOOK'), (9008, 9008, 'J0008', 'Main', 'BOOK'), (9009, 9009, 'J0009', 'Main', 'BOOK'), (9010, 9010, 'J0010', 'Main', 'BOOK'),
    (9011, 9011, 'J0011', 'Main', 'BOOK'), (9012, 9012, 'J0012', 'Main', 'BOOK'), (9013, 9013, 'J0013', 'Main', 'BOOK'), (9014, 9014, 'J0014', 'Main', 'BOOK');

INSERT INTO issues (issue_id, borrowernumber, itemnumber, date_due, branchcode, issuedate, renewals_count) VALUES (9001, 9001, 9009, '2026-03-01 23:59:00', 'Main', '2026-02-08', 0),
    (9002, 9003, 9010, '2026-02-27 23:59:00', 'Main', '2026-02-06', 0), (9003, 9005, 9011, '2026-03-05 23:59:00', 'Main', '2026-02-12', 1),
    (9004, 9006, 9012, '2026-03-03 23:59:00', 'Main', '2026-02-10', 0), (9005, 9002, 9002, '2026-03-20 23:59:00', 'Main', '2026-02-27', 0),
    (9006, 9009, 9014, '2026-03-06 23:59:00', 'Main', '2026-02-13', 0);
-- fines that grow: the item comes back; so, a part paid; it stays out; it comes back without a fee;
-- it comes back and goes out again to the same patron. And one whose loan has ended: it grows no more
INSERT INTO accountlines (accountlines_id, issue_id, borrowernumber, itemnumber, amount, amountoutstanding, debit_type_code, status, interface) VALUES
    (9001, 9001, 9001, 9009, 1.25, 1.25, 'OVERDUE', 'UNRETURNED', 'cron'), (9002, 9002, 9003, 9010, 1.75, 1.25, 'OVERDUE', 'UNRETURNED', 'cron'),
    (9003, 9003, 9005, 9011, 0.25, 0.25, 'OVERDUE', 'UNRETURNED', 'cron'), (9004, 9004, 9006, 9012, 1.00, 1.00, 'OVERDUE', 'UNRETURNED', 'cron'),
    (9005, 9006, 9009, 9014, 0.15, 0.15, 'OVERDUE', 'UNRETURNED', 'cron'), (9010, 8888, 9009, NULL, 0.75, 0.75, 'OVERDUE', 'UNRETURNED', 'cron');
-- two fees of one amount; a debit type that the maps lack; an apostrophe in a type; no card; amounts that are no hundredths
INSERT INTO accountlines (accountlines_id, borrowernumber, amount, amountoutstanding, debit_type_code, interface) VALUES (9111, 9001, 2, 2, 'LOST', 'intranet'),
    (9222, 9001, 2, 2, 'LOST', 'intranet'), (9220, 9004, 3.5, 1.25, 'STRANGE', 'intranet'), (9221, 9004, 0.004, 0.004, 'RENT', 'intranet'),
    (9223, 9009, 5, 0.004, 'RENT', 'intranet'), (9224, 9003, 1.005, 1.005, 'RENT', 'intranet'), (9225, 9002, 2, 2, 'RENT', 'intranet'), (9226, 9009, 0.5, 0.5, 'O''DD', 'intranet');
INSERT INTO accountlines (accountlines_id, borrowernumber, amount, amountoutstanding, credit_type_code, interface) VALUES (9300, 9004, -2.25, 0, 'PAYMENT', 'intranet'),
    (9301, 9009, -4.996, 0, 'PAYMENT', 'intranet'), (9302, 9003, -0.5, 0, 'PAYMENT', 'intranet');
INSERT INTO account_offsets (credit_id, debit_id, type, amount) VALUES (9300, 9220, 'APPLY', -2.25), (9301, 9223, 'APPLY', -4.996), (9302, 9002, 'APPLY', -0.5);

-- a hold twice; on a title; suspended; of who has the item; without a card; one that waits at the shelf before a higher priority
INSERT INTO reserves (reserve_id, borrowernumber, reservedate, biblionumber, branchcode, priority, itemnumber, found, suspend) VALUES
    (9001, 9001, '2026-03-01', 9004, 'Main', 1, 9004, NULL, 0), (9002, 9006, '2026-03-01', 9004, 'East', 2, 9004, NULL, 0), (9003, 9001, '2026-03-02', 9004, 'East', 3, 9004, NULL, 0),
    (9004, 9009, '2026-03-02', 9004, 'Main', 4, NULL, NULL, 0), (9005, 9009, '2026-03-02', 9008, 'Main', 1, 9008, NULL, 1), (9006, 9005, '2026-03-02', 9011, 'Main', 1, 9011, NULL, 0),
    (9007, 9002, '2026-03-02', 9008, 'Main', 2, 9008, NULL, 0), (9008, 9003, '2026-03-02', 9013, 'Main', 1, 9013, NULL, 0), (9009, 9009, '2026-03-03', 9013, NULL, 0, 9013, 'W', 0);
