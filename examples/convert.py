#!/usr/bin/env python3
"""convert.py FOLDER: converts another kit's TPC-C database to an image. FOLDER has a CSV file for each table.

The files are WAREHOUSE.csv, DISTRICT.csv and so on, in capital or small letters; orders are in OORDER or ORDERS. If the first record of a
file names the columns, as in BenchBase's tables exported with a header, they may come in any order, else they come as py-tpcc's csv driver
writes them. A null is empty, NULL, None or \\N. Amounts have at most two decimals, rates four; a moment is a number of seconds, or a date
and time, whose fraction of a second is dropped. Columns that an image doesn't have, such as addresses, are left out. History records are
numbered in their order. `eve-tpcc check` tells whether the image is sound."""
import csv
import datetime
import decimal
import itertools
import os
import sys

DISTS = [f's_dist_{d:02}' for d in range(1, 11)]
# The columns of each table, in py-tpcc's order.
COLUMNS = {
    'warehouse': 'w_id w_name w_street_1 w_street_2 w_city w_state w_zip w_tax w_ytd',
    'district': 'd_id d_w_id d_name d_street_1 d_street_2 d_city d_state d_zip d_tax d_ytd d_next_o_id',
    'customer': 'c_id c_d_id c_w_id c_first c_middle c_last c_street_1 c_street_2 c_city c_state c_zip c_phone c_since c_credit '
                'c_credit_lim c_discount c_balance c_ytd_payment c_payment_cnt c_delivery_cnt c_data',
    'item': 'i_id i_im_id i_name i_price i_data',
    'stock': f's_i_id s_w_id s_quantity {" ".join(DISTS)} s_ytd s_order_cnt s_remote_cnt s_data',
    'orders': 'o_id o_c_id o_d_id o_w_id o_entry_d o_carrier_id o_ol_cnt o_all_local',
    'new_order': 'no_o_id no_d_id no_w_id',
    'order_line': 'ol_o_id ol_d_id ol_w_id ol_number ol_i_id ol_supply_w_id ol_delivery_d ol_quantity ol_amount ol_dist_info',
    'history': 'h_c_id h_c_d_id h_c_w_id h_d_id h_w_id h_date h_amount h_data',
}
NULLS = ('', 'NULL', 'null', 'None', '\\N')
EPOCH = datetime.datetime(1970, 1, 1)


def whole(text, of=1):
    """A number in units of 1 / of, which must be whole."""
    parts = decimal.Decimal(text) * of
    if parts != int(parts):
        sys.exit(f'convert: {text} has more decimals than an image')
    return int(parts)


def cents(text):
    return whole(text, 100)


def rate(text):
    return whole(text, 10_000)


def moment(text):
    """Seconds since 1970."""
    if text.isdigit():
        return int(text)
    return int((datetime.datetime.fromisoformat(text).replace(tzinfo=None) - EPOCH).total_seconds())


def nullable(number):
    return lambda text: '-' if text in NULLS else number(text)


def known(text):
    """A text; a null is the empty one."""
    return '' if text in NULLS[1:] else text


# An image's kinds of records: letter, table, columns, and the conversion of each; # is the record's number.
KINDS = [
    ('W', 'warehouse', 'w_id w_name w_tax w_ytd', [whole, known, rate, cents]),
    ('D', 'district', 'd_w_id d_id d_name d_tax', [whole, whole, known, rate]),
    ('Y', 'district', 'd_w_id d_id d_ytd', [whole, whole, cents]),
    ('X', 'district', 'd_w_id d_id d_next_o_id', [whole, whole, whole]),
    ('C', 'customer', 'c_w_id c_d_id c_id c_last c_middle c_first c_credit c_discount c_balance c_ytd_payment c_payment_cnt '
     'c_delivery_cnt c_data', [whole, whole, whole, known, known, known, known, rate, cents, cents, whole, whole, known]),
    ('I', 'item', 'i_id i_name i_price i_data', [whole, known, cents, known]),
    ('S', 'stock', f's_w_id s_i_id s_quantity s_ytd s_order_cnt s_remote_cnt s_data {" ".join(DISTS)}', [whole] * 6 + [known] * 11),
    ('O', 'orders', 'o_w_id o_d_id o_id o_c_id o_entry_d o_carrier_id o_ol_cnt o_all_local',
     [whole, whole, whole, whole, moment, nullable(whole), whole, whole]),
    ('N', 'new_order', 'no_w_id no_d_id no_o_id', [whole, whole, whole]),
    ('L', 'order_line', 'ol_w_id ol_d_id ol_o_id ol_number ol_i_id ol_supply_w_id ol_delivery_d ol_quantity ol_amount ol_dist_info',
     [whole, whole, whole, whole, whole, whole, nullable(moment), whole, cents, known]),
    ('H', 'history', '# h_c_id h_c_d_id h_c_w_id h_d_id h_w_id h_date h_amount h_data',
     [whole, whole, whole, whole, whole, whole, moment, cents, known]),
]


def rows(folder, table):
    """The rows of a table, by column name."""
    names = {name.lower(): name for name in os.listdir(folder)}
    name = names.get(f'{table}.csv') or names.get('oorder.csv' if table == 'orders' else '') or sys.exit(f'convert: no {table}.csv')
    with open(os.path.join(folder, name), encoding='ascii', newline='') as file:
        columns, read = COLUMNS[table].split(), csv.reader(file)
        first = next(read, [])
        if columns[0] in [field.lower() for field in first]:
            columns, first = [field.lower() for field in first], []
        for number, row in enumerate(filter(None, itertools.chain([first], read)), start=1):
            yield {**dict(zip(columns, row)), '#': number}


def main(folder):
    output = csv.writer(sys.stdout, lineterminator='\n')
    output.writerow(['eve-tpcc', 2])
    count = 0
    for letter, table, columns, kinds in KINDS:
        for row in rows(folder, table):
            output.writerow([letter] + [kind(row[column]) for column, kind in zip(columns.split(), kinds)])
            count += 1
    output.writerow(['E', count])


if __name__ == '__main__':
    sys.exit(main(sys.argv[1]) if len(sys.argv) == 2 else __doc__)
