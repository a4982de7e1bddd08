#!/usr/bin/env python3
"""Writes a made-up FOCUS 1.0 export as CSV, the same bytes for the same options.

    python3 examples/make_export.py > examples/focus-export.csv
    python3 examples/make_export.py --rows 100000 --hours 744 > longer.csv

The default is the shipped example: all 43 columns of FOCUS 1.0 in an order of
its own, each text in quotes and each number bare, behind a byte order mark.
Accounts, resources and amounts are invented; services, units and price texts
are written as a provider writes them. Costs have 1 to 12 decimals, some an
exponent, some are negative, and some lie exactly between two nanos.
"""
import argparse
import datetime
import json
import random
import sys

FULL = """
    InvoiceIssuerName ProviderName PublisherName BillingAccountId BillingAccountName SubAccountId SubAccountName
    BillingPeriodStart BillingPeriodEnd ChargePeriodStart ChargePeriodEnd ChargeCategory ChargeClass ChargeFrequency
    ChargeDescription ServiceCategory ServiceName ResourceId ResourceName ResourceType RegionId RegionName
    AvailabilityZone SkuId SkuPriceId PricingCategory PricingQuantity PricingUnit ListUnitPrice ListCost
    ContractedUnitPrice ContractedCost ConsumedQuantity ConsumedUnit BillingCurrency BilledCost EffectiveCost
    CommitmentDiscountId CommitmentDiscountCategory CommitmentDiscountName CommitmentDiscountType
    CommitmentDiscountStatus Tags
""".split()
MEDIUM = """
    BilledCost BillingCurrency ChargeCategory ChargeClass ChargePeriodEnd ChargePeriodStart CommitmentDiscountCategory
    CommitmentDiscountId CommitmentDiscountStatus ConsumedQuantity ConsumedUnit EffectiveCost SkuId SubAccountId Tags
""".split()
NARROW = "BilledCost EffectiveCost BillingCurrency ChargeCategory ChargePeriodStart ChargePeriodEnd".split()
FORMS = {"full": FULL, "medium": MEDIUM, "narrow": NARROW}
assert len(FULL) == 43

NUMBERS = {
    "BilledCost", "EffectiveCost", "ListCost", "ContractedCost", "ListUnitPrice", "ContractedUnitPrice",
    "PricingQuantity", "ConsumedQuantity",
}  # fmt: skip

REGIONS = [
    ("us-east-1", "US East (N. Virginia)"),
    ("eu-central-1", "EU (Frankfurt)"),
    ("sa-east-1", "South America (São Paulo)"),
]
ACCOUNTS = [
    ("210987654321", "shop-production"),
    ("310987654322", "shop-staging"),
    ("410987654323", "data platform"),
    ("510987654324", "r&d \"sandbox\""),
]
TEAMS = ["web", "data", "platform", "search, ranking", "facturación", "mobile"]

# Category, service, resource type, unit, price of a unit in 10^-10 of the currency, most units an hour, description.
SKUS = [
    ("Compute", "Amazon Elastic Compute Cloud", "Instance", "Hours", 1_920_000_000, 1,
     "$0.192 per On Demand Linux m5.xlarge Instance Hour"),
    ("Compute", "Amazon Elastic Compute Cloud", "Instance", "Hours", 2_720_000_000, 1,
     "$0.272 per On Demand Linux c6g.2xlarge Instance Hour"),
    ("Storage", "Amazon Elastic Block Store", "Volume", "GB-Mo", 800_000_000, 3,
     "$0.08 per GB-month of General Purpose (gp3) provisioned storage"),
    ("Storage", "Amazon Simple Storage Service", "Bucket", "Requests", 50_000, 40_000,
     "$0.005 per 1,000 PUT, COPY, POST, or LIST requests"),
    ("Storage", "Amazon Simple Storage Service", "Bucket", "GB-Mo", 230_000_000, 9,
     "$0.023 per GB - first 50 TB / month of storage used"),
    ("Compute", "AWS Lambda", "Function", "Lambda-GB-Second", 166_667, 90_000,
     "AWS Lambda - Total Compute\nTier 1, duration in GB-seconds"),
    ("Databases", "Amazon Relational Database Service", "DB Instance", "Hours", 2_900_000_000, 1,
     "$0.29 per RDS db.r5.large Single-AZ instance hour (or partial hour) running PostgreSQL"),
    ("Networking", "Amazon Virtual Private Cloud", "NAT Gateway", "Hours", 450_000_000, 1,
     "$0.045 per NAT Gateway Hour"),
    ("Networking", "AWS Data Transfer", "", "GB", 900_000_000, 12,
     "$0.09 per GB - first 10 TB / month data transfer out"),
    ("Security", "AWS Key Management Service", "Key", "Requests", 30_000, 5_000,
     "$0.03 per 10,000 requests, \"symmetric\" keys"),
]  # fmt: skip
PLAN = "arn:aws:savingsplans::109876543210:savingsplan/0b3c6a52-7f7d-4a39-9a1e-5d1f0c2e8b77"
LETTERS = "ABCDEFGHJKLMNPQRSTUVWXYZ23456789"


class Maker:
    """The rows of an export, one after the other."""

    def __init__(self, rows, hours, seed, start):
        self.rows, self.hours = rows, hours
        self.random = random.Random(seed).random
        month = start.replace(day=1, hour=0)
        self.month = time_text(month)
        self.next_month = time_text((month + datetime.timedelta(days=32)).replace(day=1))
        self.times = [time_text(start + datetime.timedelta(hours=hour)) for hour in range(hours + 1)]
        self.skus = {(text, region): self.word(16) for *_, text in SKUS for region, _ in REGIONS}
        self.resources = [self.resource(number) for number in range(min(2_000, max(12, rows // hours)))]

    def below(self, limit):
        return int(self.random() * limit)

    def word(self, length):
        return "".join(LETTERS[self.below(32)] for _ in range(length))

    def row(self, number):
        """The row of this number, by column; a column that isn't there is null."""
        hour = number * self.hours // self.rows
        resource = self.resources[number % len(self.resources)]
        row = dict(resource["row"], ChargePeriodStart=self.times[hour], ChargePeriodEnd=self.times[hour + 1])
        chance = self.random()
        if chance < 0.92:
            if chance < 0.15 and resource["is_instance"]:
                return self.covered(row, resource["price"])
            return self.usage(row, resource["price"], resource["most"])
        if chance < 0.93:
            return self.unused(row)
        if chance < 0.95:
            return self.tax(row)
        if chance < 0.97:
            return self.credit(row, resource["price"])
        if chance < 0.985:
            return self.correction(row, resource["price"])
        if chance < 0.99:
            return self.purchase(row)
        return self.adjustment(row)

    def resource(self, number):
        """What stays the same for one resource in all its hours."""
        category, service, kind, unit, price, most, text = SKUS[number % len(SKUS)]
        region, region_name = REGIONS[self.below(len(REGIONS))]
        account, account_name = ACCOUNTS[self.below(len(ACCOUNTS))]
        sku = self.skus[text, region]
        unit_price = f"{price // 10**10}.{price % 10**10:010d}"
        row = {
            "InvoiceIssuerName": "Amazon Web Services, Inc.", "ProviderName": "AWS", "PublisherName": "AWS",
            "BillingAccountId": "109876543210", "BillingAccountName": "Example Shop, Ltd.",
            "SubAccountId": account, "SubAccountName": account_name,
            "BillingPeriodStart": self.month, "BillingPeriodEnd": self.next_month,
            "ChargeCategory": "Usage", "ChargeFrequency": "Usage-Based", "ChargeDescription": text,
            "ServiceCategory": category, "ServiceName": service,
            "RegionId": region, "RegionName": region_name, "BillingCurrency": "USD",
            "SkuId": sku, "SkuPriceId": f"{sku}.JRTCKXETXF.6YS6EN2CT7", "PricingCategory": "Standard",
            "PricingUnit": unit, "ConsumedUnit": unit,
            "ListUnitPrice": unit_price, "ContractedUnitPrice": unit_price,
            "Tags": self.tags(number),
        }  # fmt: skip
        if kind:
            row["ResourceType"] = kind
            row["ResourceId"] = f"{kind.lower().replace(' ', '-')}-0{self.word(16).lower()}"
            row["ResourceName"] = f"{TEAMS[number % len(TEAMS)]} {kind.lower()} {number}"
        if unit == "Hours":
            row["AvailabilityZone"] = region + "abc"[self.below(3)]
        return {"row": row, "price": price, "most": most, "is_instance": kind == "Instance"}

    def tags(self, number):
        chance = self.random()
        if chance < 0.06:
            return ""
        tags = {"environment": "production" if chance < 0.7 else "staging"}
        if chance > 0.12:
            tags["team"] = None if chance > 0.97 else TEAMS[int(self.random() ** 2 * len(TEAMS))]
        tags["Name"] = f"node {number}, \"{self.word(5).lower()}\""
        tags["cost center"] = f"CC-{1000 + self.below(40)}"
        if self.random() < 0.3:
            tags["path"] = f"C:\\data\\{self.word(4)}"
        if self.random() < 0.2:
            tags["managed"] = self.random() < 0.5
        return json.dumps(tags, ensure_ascii=self.random() < 0.4, separators=(",", ":"))

    def usage(self, row, price, most):
        """A charge by the price list: a quantity of up to twelve decimals and its cost."""
        if most == 1:
            quantity = 10**12 if self.random() < 0.8 else self.below(3_600) * 10**12 // 3_600
        elif most <= 12:
            quantity = self.below(most * 10**12)
        else:
            quantity = self.below(most) * 10**12
        cost = self.cost(price * quantity // 10**10)
        discounted = self.cost(price * quantity * 9 // 10**11) if self.random() < 0.15 else cost
        row.update(BilledCost=cost, EffectiveCost=discounted, ListCost=cost, ContractedCost=cost)
        row["PricingQuantity"] = row["ConsumedQuantity"] = decimal(quantity, 12, True)
        return row

    def covered(self, row, price):
        """An hour that a savings plan pays for."""
        self.in_plan(row, "Used")
        row.update(PricingCategory="Committed", PricingQuantity="1", ConsumedQuantity="1")
        cost = self.cost(price * 100)
        row.update(BilledCost="0", EffectiveCost=self.cost(price * 72), ListCost=cost, ContractedCost=cost)
        return row

    def unused(self, row):
        """What of a savings plan's hour nothing consumed."""
        clear(row, "SkuId SkuPriceId PricingUnit ConsumedUnit ListUnitPrice ContractedUnitPrice PricingCategory Tags")
        clear(row, "ResourceId ResourceName ResourceType AvailabilityZone")
        self.in_plan(row, "Unused")
        row.update(ChargeDescription="Savings Plan, unused part of the hour")
        row.update(BilledCost="0.0", EffectiveCost=self.cost(self.below(10**12)), ListCost="0", ContractedCost="0")
        return row

    def in_plan(self, row, status):
        row.update(
            CommitmentDiscountId=PLAN,
            CommitmentDiscountCategory="Spend",
            CommitmentDiscountName="compute plan 2024",
            CommitmentDiscountType="Savings Plan",
        )
        if status:
            row["CommitmentDiscountStatus"] = status

    def monthly(self, row, category, text):
        """A charge of the account and not of a resource."""
        clear(row, "SkuId SkuPriceId PricingUnit ConsumedUnit ListUnitPrice ContractedUnitPrice PricingCategory Tags")
        clear(row, "ResourceId ResourceName ResourceType AvailabilityZone")
        row.update(ChargeCategory=category, ChargeFrequency="One-Time", ChargeDescription=text)

    def set_cost(self, row, cost):
        row.update(BilledCost=cost, EffectiveCost=cost, ListCost=cost, ContractedCost=cost)
        return row

    def tax(self, row):
        self.monthly(row, "Tax", "VAT 19 %, “Umsatzsteuer”")
        row.update(ChargePeriodStart=self.month, ChargePeriodEnd=self.next_month)
        return self.set_cost(row, decimal(self.below(9_000), 2, False))

    def credit(self, row, price):
        self.monthly(row, "Credit", "Migration credit, \"phase 2\"\napplied to this account")
        return self.set_cost(row, self.cost(-price * (1 + self.below(100))))

    def correction(self, row, price):
        """A refund of an earlier hour."""
        row.update(ChargeClass="Correction", ConsumedQuantity="-1", PricingQuantity="-1")
        return self.set_cost(row, self.cost(-price * 100))

    def purchase(self, row):
        """The monthly fee of a savings plan; its hours carry it as effective cost."""
        self.monthly(row, "Purchase", "1 year No Upfront Compute Savings Plan")
        self.in_plan(row, "")
        row.update(ChargeFrequency="Recurring", PricingCategory="Committed")
        fee = decimal(self.below(5_000_000), 4, False)
        row.update(BilledCost=fee, EffectiveCost="0", ListCost=fee, ContractedCost=fee)
        return row

    def adjustment(self, row):
        self.monthly(row, "Adjustment", "Rounding")
        return self.set_cost(row, decimal(self.below(201) - 100, 3, False))

    def cost(self, units):
        """An amount of 10^-12 units, cut to some number of decimals and spelled in one of the ways that exports use."""
        chance = self.random()
        if chance < 0.45:
            return decimal(units, 12, chance < 0.2)
        if chance < 0.49:
            return decimal(units // 1_000 * 10 + 5, 10, False)
        if chance < 0.54:
            return with_exponent(units, 12)
        places = 1 + self.below(12)
        return decimal(units // 10 ** (12 - places), places, False)


def time_text(time):
    return time.strftime("%Y-%m-%dT%H:%M:%SZ")


def decimal(units, places, is_short):
    """`units` times 10^-places; a short text has no zeros at its end."""
    whole, part = divmod(abs(units), 10**places)
    digits = f"{part:0{places}d}"
    digits = digits.rstrip("0") if is_short else digits
    return ("-" if units < 0 else "") + (f"{whole}.{digits}" if digits else str(whole))


def with_exponent(units, places):
    """`units` times 10^-places, as 1.92E-05."""
    digits = str(abs(units))
    exponent = len(digits) - 1 - places
    digits = digits.rstrip("0") or "0"
    mantissa = digits[0] + ("." + digits[1:] if digits[1:] else "")
    return f"{'-' if units < 0 else ''}{mantissa}E{'-' if exponent < 0 else '+'}{abs(exponent):02d}"


def clear(row, columns):
    for column in columns.split():
        row.pop(column, None)


def field(column, text, quotes_each):
    if quotes_each and text and column not in NUMBERS or any(mark in text for mark in ',"\r\n'):
        return '"' + text.replace('"', '""') + '"'
    return text


def write_export(out, options):
    columns = FORMS[options.form]
    quotes_each = options.quotes == "texts"
    maker = Maker(options.rows, options.hours, options.seed, options.start)
    if options.mark:
        out.write(b"\xef\xbb\xbf")
    out.write((",".join(field("", column, quotes_each) for column in columns) + "\n").encode())
    for number in range(options.rows):
        row = maker.row(number)
        out.write((",".join([field(it, row.get(it, ""), quotes_each) for it in columns]) + "\n").encode())
    out.flush()


def whole_number(text):
    if not text.isdecimal() or int(text) < 1:
        raise argparse.ArgumentTypeError(f"{text!r} is not a whole number from 1")
    return int(text)


def main():
    parser = argparse.ArgumentParser(description=__doc__, formatter_class=argparse.RawDescriptionHelpFormatter)
    parser.add_argument("--rows", type=whole_number, default=300, help="how many rows (default: 300)")
    parser.add_argument("--hours", type=whole_number, default=48, help="over how many hours (default: 48)")
    parser.add_argument("--seed", type=int, default=1, help="another seed gives other rows (default: 1)")
    parser.add_argument(
        "--start",
        type=datetime.datetime.fromisoformat,
        default=datetime.datetime(2024, 9, 1),
        help="the first hour, UTC (default: 2024-09-01T00:00)",
    )
    parser.add_argument(
        "--form", choices=FORMS, default="full", help="all 43 columns, 15 or 6 of them (default: full)"
    )
    parser.add_argument(
        "--quotes", choices=["texts", "needed"], default="texts", help="which fields are quoted (default: texts)"
    )
    parser.add_argument("--no-mark", dest="mark", action="store_false", help="without the byte order mark")
    write_export(sys.stdout.buffer, parser.parse_args())


if __name__ == "__main__":
    main()
