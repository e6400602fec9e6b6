-- Ordinary dirt, besides the library day. What becomes of each row is in ../../trial (base, run) and in base, run and told.csv here.
BEGIN;
INSERT INTO permission.grp_tree VALUES (9, 'Seniors'), (10, 'Adult');
INSERT INTO config.standing_penalty VALUES (5, 'PATRON_EXCEEDS_FINES', 'x', 'CIRC|FULFILL'), (100, 'ALERT_NOTE', 'x', NULL), (101, 'BANNED', 'x', 'CIRC|HOLD');
-- quotes, a comma, an apostrophe, a class in other letters; no card; no name, with a penalty that is over; umlauts, barred; line ends and bars; Japanese
INSERT INTO actor.usr (id, card, profile, first_given_name, family_name, home_ou, barred, deleted, expire_date) VALUES
    (9001, 9001, 10, 'Zoë "Zed"', 'O''Brien, the 2nd', 1, false, false, '2030-01-01'), (9002, NULL, 1, '', 'Cardless', 1, false, false, '2030-01-01'),
    (9003, 9003, 1, '', '', 1, false, false, '2030-01-01'), (9004, 9004, 1, 'Jürgen', 'Müller-Lüdenscheidt', 1, true, false, '2030-01-01'),
    (9005, 9005, 1, E'Bar|Name\r\nLine', E'End\nLast', 1, false, false, '2030-01-01'), (9006, 9006, 1, '太郎', '山田', 1, false, false, '2030-01-01'),
    (9007, 9007, 1, '', 'Bar', 1, false, false, '2030-01-01'), (9008, 9008, 1, '', 'Ended', 1, false, false, '2026-03-06'), (9009, 9009, 9, '', 'Senior', 1, false, false, '2030-01-01'),
    -- deleted, with a fee; with a penalty of the server's own for fines, which the policy judges; with one of the library's
    (9010, 9010, 1, '', 'Deleted', 1, false, true, '2030-01-01'), (9011, 9011, 1, '', 'Fines', 1, false, false, '2030-01-01'), (9012, 9012, 1, '', 'Banned', 1, false, false, '2030-01-01');
INSERT INTO actor.card (id, usr, barcode) VALUES (9001, 9001, 'D0001'), (9003, 9003, 'D0003'), (9004, 9004, 'D0004'), (9005, 9005, 'D0005'), (9006, 9006, 'D0006'),
    (9007, 9007, 'D|07'), (9008, 9008, 'D0008'), (9009, 9009, 'D0009'), (9010, 9010, 'D0010'), (9011, 9011, 'D0011'), (9012, 9012, 'D0012');
INSERT INTO actor.usr_standing_penalty (org_unit, usr, standing_penalty, stop_date) VALUES (1, 9003, 101, '2026-03-07 07:00:00'), (1, 9004, 100, NULL), (1, 9011, 5, NULL), (1, 9012, 101, NULL);

INSERT INTO config.circ_modifier VALUES ('toy', 'Toys', '000');
INSERT INTO reporter.materialized_simple_record VALUES (9002, 'He said "no", twice'), (9003, E'A line\nend and | a bar'), (9004, '日本語の本'), (9006, 'A toy'), (9007, repeat('ü', 600)),
    (9008, 'C:\new\table'), (9009, 'Overdue 9'), (9010, 'Overdue 10'), (9011, 'Overdue 11'), (9012, 'Overdue 12'), (9013, 'Asked for'), (9014, 'Back and out again');
INSERT INTO asset.call_number SELECT n, n, 1, 'x' FROM generate_series(9001, 9015) n;
INSERT INTO asset.copy (id, circ_lib, call_number, barcode, circ_modifier, deleted) VALUES (9001, 1, 9001, 'J0001', 'book', false), (9002, 1, 9002, 'J0002', 'book', false),
    (9003, 1, 9003, 'J0003', 'book', false), (9004, 1, 9004, 'J0004', 'book', false), (9005, 1, 9005, '', 'book', false), (9006, 1, 9006, 'J0006', 'toy', false), (9007, 1, 9007, 'J0007', NULL, false),
    (9008, 1, 9008, 'J0008', 'book', false), (9009, 1, 9009, 'J0009', 'book', false), (9010, 1, 9010, 'J0010', 'book', false), (9011, 1, 9011, 'J0011', 'book', false),
    (9012, 1, 9012, 'J0012', 'book', false), (9013, 1, 9013, 'J0013', 'book', false), (9014, 1, 9014, 'J0014', 'book', false), (9015, 1, 9015, 'J0015', 'book', true);

INSERT INTO action.circulation (id, usr, target_copy, circ_lib, circ_staff, xact_start, due_date, renewal_remaining, duration_rule, recurring_fine_rule, max_fine_rule, grace_period,
    phone_renewal, desk_renewal, opac_renewal, checkin_time, stop_fines) VALUES
    (9001, 9001, 9009, 1, 1, '2026-02-08', '2026-03-01 23:59:59', 2, 'adult', 'default', 'default', '0', false, false, false, NULL, NULL),
    (9002, 9003, 9010, 1, 1, '2026-02-06', '2026-02-27 23:59:59', 2, 'adult', 'default', 'default', '0', false, false, false, NULL, 'MAXFINES'),
    (9003, 9005, 9011, 1, 1, '2026-02-12', '2026-03-05 23:59:59', 1, 'adult', 'default', 'default', '0', false, false, false, NULL, NULL),
    (9004, 9006, 9012, 1, 1, '2026-02-10', '2026-03-03 23:59:59', 2, 'adult', 'default', 'default', '0', false, false, false, NULL, NULL),
    (9005, 9002, 9002, 1, 1, '2026-02-27', '2026-03-20 23:59:59', 2, 'adult', 'default', 'default', '0', false, false, false, NULL, NULL),
    (9006, 9009, 9014, 1, 1, '2026-02-13', '2026-03-06 23:59:59', 2, 'adult', 'default', 'default', '0', false, false, false, NULL, NULL),
    -- a loan that was never checked in, before a later one of the same item
    (9007, 9008, 9011, 1, 1, '2025-02-13', '2025-03-06 23:59:59', 2, 'adult', 'default', 'default', '0', false, false, false, NULL, 'LOST'),
    -- the loan has ended: its fine grows no more
    (9010, 9009, 9013, 1, 1, '2026-01-13', '2026-02-03 23:59:59', 2, 'adult', 'default', 'default', '0', false, false, false, '2026-02-06', 'CHECKIN');
-- fines that grow: the item comes back; so, a part paid; it stays out; it comes back without a fee; it comes back and goes out again
INSERT INTO money.billing (xact, amount, billing_type, btype) VALUES (9001, 0.75, 'Overdue materials', 1), (9001, 0.50, 'Overdue materials', 1), (9002, 1.75, 'Overdue materials', 1),
    (9003, 0.25, 'Overdue materials', 1), (9004, 1.00, 'Overdue materials', 1), (9006, 0.15, 'Overdue materials', 1), (9010, 0.75, 'Overdue materials', 1);
INSERT INTO money.payment (xact, amount) VALUES (9002, 0.50);
-- two fees of one amount, a billing type that the maps lack, an apostrophe in a type, no card, a deleted patron, a voided bill
INSERT INTO config.billing_type VALUES (9001, 'Strange', 1), (9002, 'O''dd fee', 1);
INSERT INTO money.grocery (id, usr, billing_location) VALUES (9111, 9001, 1), (9222, 9001, 1), (9220, 9004, 1), (9223, 9009, 1), (9224, 9003, 1), (9225, 9002, 1), (9226, 9009, 1), (9227, 9010, 1), (9228, 9001, 1);
INSERT INTO money.billing (xact, amount, billing_type, btype, voided) VALUES (9111, 2, 'Lost Materials', 3, false), (9222, 2, 'Lost Materials', 3, false), (9220, 3.5, 'Strange', 9001, false),
    (9223, 5, 'Rental', 6, false), (9224, 0.5, 'Strange', 9001, false), (9224, 0.51, 'Rental', 6, false), (9225, 2, 'Rental', 6, false), (9226, 0.5, 'O''dd fee', 9002, false), (9227, 2, 'Rental', 6, false),
    (9228, 4, 'Rental', 6, true);
INSERT INTO money.cash_payment (xact, amount, amount_collected, accepting_usr) VALUES (9220, 2.25, 2.25, 1), (9223, 5, 5, 1);

-- a hold that cuts in line, twice; on a title; suspended; of who has the item; without a card; on a title, but the item waits at the shelf
INSERT INTO action.hold_request (id, usr, requestor, request_lib, selection_ou, pickup_lib, hold_type, target, request_time, frozen, capture_time, shelf_time, current_copy, cut_in_line) VALUES
    (9001, 9001, 1, 1, 1, 1, 'C', 9004, '2026-03-01 12:00', false, NULL, NULL, NULL, true), (9002, 9006, 1, 1, 1, 2, 'C', 9004, '2026-03-01 11:00', false, NULL, NULL, NULL, NULL),
    (9003, 9001, 1, 1, 1, 2, 'C', 9004, '2026-03-02 10:00', false, NULL, NULL, NULL, NULL), (9004, 9009, 1, 1, 1, 1, 'T', 9004, '2026-03-02 11:00', false, NULL, NULL, NULL, NULL),
    (9005, 9009, 1, 1, 1, 1, 'C', 9008, '2026-03-02 12:00', true, NULL, NULL, NULL, NULL), (9006, 9005, 1, 1, 1, 1, 'C', 9011, '2026-03-02 13:00', false, NULL, NULL, NULL, NULL),
    (9007, 9002, 1, 1, 1, 1, 'C', 9008, '2026-03-02 14:00', false, NULL, NULL, NULL, NULL), (9008, 9003, 1, 1, 1, 1, 'C', 9013, '2026-03-02 15:00', false, NULL, NULL, NULL, NULL),
    (9009, 9009, 1, 1, 1, 1, 'T', 9013, '2026-03-03 10:00', false, '2026-03-05', '2026-03-05', 9013, NULL);
COMMIT;
