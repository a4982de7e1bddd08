#!/usr/bin/env python3
"""Writes four made-up exports, each in the manner of another provider, into a folder; or those that have a form of their own.

    python3 examples/make_providers.py examples/providers
    python3 examples/make_providers.py --dialects examples/dialects

| file | what it shows |
|---|---|
| amazon.csv | each text in quotes, prefixed tag keys (`user:team`), amounts of twelve decimals and with exponents |
| microsoft.csv | a byte order mark, CRLF, no ChargeClass column, days in place of hours, tags in several scripts, columns of its own |
| google.csv | no commitment columns, times with a fraction that is zero, labels that are true, false and null |
| oracle.csv | each field in quotes, empty ones too, tag keys with a namespace, a key that stands twice |
| gcp.csv, a dialect | the rows of google.csv as BigQuery exports them: times such as `2024-09-01 00:00:00 UTC`, tags as a list of pairs |

The same bytes each time. The amounts are invented.
"""
import argparse
import datetime
import json
import os
import random
import sys

REQUIRED = "BilledCost EffectiveCost BillingCurrency ChargeCategory ChargePeriodStart ChargePeriodEnd".split()
START = datetime.datetime(2024, 9, 1)
ROWS = 60


class Provider:
    """How one provider writes an export."""

    mark = b""
    end = "\n"
    columns = []
    seconds = "%Y-%m-%dT%H:%M:%SZ"
    step = datetime.timedelta(hours=1)

    def __init__(self):
        self.random = random.Random(type(self).__name__)

    def quotes(self, column, text):
        return False

    def field(self, column, text):
        if self.quotes(column, text) or any(mark in text for mark in ',"\r\n'):
            return '"' + text.replace('"', '""') + '"'
        return text

    def row(self, number):
        start = START + self.step * (number // 6)
        row = {
            "BillingCurrency": "USD", "ChargeCategory": "Usage", "ConsumedUnit": "Hours", "ConsumedQuantity": "1",
            "ChargePeriodStart": start.strftime(self.seconds), "ChargePeriodEnd": (start + self.step).strftime(self.seconds),
        }  # fmt: skip
        row.update(self.cells(number))
        return row

    def write(self, path):
        with open(path, "wb") as file:
            file.write(self.mark + (",".join(self.field("", c) for c in self.columns) + self.end).encode())
            for number in range(ROWS):
                row = self.row(number)
                file.write((",".join(self.field(c, row.get(c, "")) for c in self.columns) + self.end).encode())

    def cost(self, places):
        return f"{self.random.randrange(1, 10**places)}".zfill(places + 1)

    def pick(self, words):
        return words[self.random.randrange(len(words))]


def pointed(digits, places):
    return f"{digits[:-places]}.{digits[-places:]}"


class Amazon(Provider):
    columns = (
        "AvailabilityZone BilledCost BillingAccountId BillingCurrency ChargeCategory ChargeClass ChargePeriodEnd ChargePeriodStart "
        "CommitmentDiscountCategory CommitmentDiscountId CommitmentDiscountStatus ConsumedQuantity ConsumedUnit EffectiveCost "
        "SkuId SubAccountId Tags"
    ).split()

    def quotes(self, column, text):
        return text != "" and column not in ("BilledCost", "EffectiveCost", "ConsumedQuantity")

    def cells(self, number):
        cost = pointed(self.cost(12), 12)
        row = {"BilledCost": cost, "EffectiveCost": cost, "AvailabilityZone": "eu-central-1a", "BillingAccountId": "109876543210"}
        row.update(SkuId=self.pick(["HQKA4TWF95DLZY7P", "4XKU65SUBH3PFTYX"]), SubAccountId=self.pick(["210987654321", "310987654322"]))
        tags = {"aws:createdBy": "AssumedRole:AROAEXAMPLE", "user:team": self.pick(["web", "data", "search, ranking"])}
        row["Tags"] = json.dumps(tags) if number % 9 else ""
        if number % 10 == 4:
            plan = "arn:aws:savingsplans::109876543210:savingsplan/0b3c6a52"
            row.update(CommitmentDiscountId=plan, CommitmentDiscountCategory="Spend", CommitmentDiscountStatus="Used", BilledCost="0E0")
        if number % 10 == 7:
            row.update(ChargeCategory="Credit", ConsumedQuantity="", BilledCost="-1.92E-05", EffectiveCost="-1.92E-05")
        if number % 20 == 19:
            row.update(ChargeClass="Correction", BilledCost="-" + cost, EffectiveCost="-" + cost, ConsumedQuantity="-1")
        return row


class Microsoft(Provider):
    mark, end, seconds, step = b"\xef\xbb\xbf", "\r\n", "%Y-%m-%dT%H:%MZ", datetime.timedelta(days=1)
    columns = (
        "BilledCost,BillingAccountName,BillingCurrency,ChargeCategory,ChargePeriodEnd,ChargePeriodStart,CommitmentDiscountCategory,"
        "CommitmentDiscountId,CommitmentDiscountStatus,ConsumedQuantity,ConsumedUnit,EffectiveCost,SkuId,SubAccountId,Tags,x_ResourceGroupName"
    ).split(",")

    def cells(self, number):
        cost = pointed(self.cost(9), 9)
        tags = {"team": self.pick(["web", "Datenplattform", "поиск"]), "équipe": self.pick(["réseau", "calcul"]), "部門": "平台"}
        row = {"BilledCost": cost, "EffectiveCost": cost, "BillingAccountName": 'Contoso, "EU"', "ConsumedQuantity": "24", "SkuId": "DZH318Z0BQPS-00TG"}
        row.update(SubAccountId="/subscriptions/6c7ee7c1", x_ResourceGroupName="rg-shop, west", Tags=json.dumps(tags, ensure_ascii=False))
        if number % 12 == 5:
            row.update(ChargeCategory="Purchase", ConsumedQuantity="", EffectiveCost="0", Tags="{}")
            row.update(CommitmentDiscountId="/providers/Microsoft.Capacity/reservationOrders/8e2a", CommitmentDiscountCategory="Usage")
        if number % 12 == 8:
            row.update(ChargeCategory="Tax", ConsumedQuantity="", ConsumedUnit="", SkuId="", Tags="")
        return row


class Google(Provider):
    seconds = "%Y-%m-%dT%H:%M:%S.000000Z"
    columns = (REQUIRED[::-1]) + ["ConsumedQuantity", "ConsumedUnit", "ChargeClass", "SkuId", "SubAccountId", "Tags", "x_Location"]

    def cells(self, number):
        cost = self.random.randrange(1, 10**7)
        tags = {"goog-k8s-namespace": self.pick(["shop", "batch"]), "team": self.pick(["web", "data", True, False, None])}
        row = {"BilledCost": f"{cost}e-06", "EffectiveCost": f"{cost}.0000E-6", "SkuId": "2DA5-55D3-E679", "SubAccountId": "shop-production"}
        row.update(ConsumedQuantity=str(self.random.randrange(10**9, 10**10)), ConsumedUnit="byte-seconds", x_Location="europe-west3")
        row["Tags"] = json.dumps(tags, separators=(",", ":"))
        if number % 15 == 11:
            row.update(ChargeCategory="Adjustment", Tags="{}", ConsumedQuantity="", ConsumedUnit="", SkuId="")
        return row


class Gcp(Google):
    seconds = "%Y-%m-%d %H:%M:%S UTC"

    def __init__(self):
        self.random = random.Random(Google.__name__)

    def cells(self, number):
        row = super().cells(number)
        pairs = json.loads(row["Tags"]).items()
        return row | {"Tags": json.dumps([{"key": key, "value": value} for key, value in pairs], separators=(",", ":"))}


class Oracle(Provider):
    end = "\r\n"
    columns = sorted(Amazon.columns) + ["oci_CompartmentName"]

    def quotes(self, column, text):
        return True

    def cells(self, number):
        cost = "+" + pointed(self.cost(11), 11)
        team = self.pick(["web", "data"])
        tags = f'{{"Oracle-Tags.CreatedBy":"default/ana","Operations.CostCenter":"{4_200 + number % 3}","team":"old","team":"{team}"}}'
        row = {"BilledCost": cost, "EffectiveCost": cost, "SkuId": "B88317", "SubAccountId": "ocid1.tenancy.oc1..aaaa", "Tags": tags}
        row.update(AvailabilityZone="AD-1", BillingAccountId="81002391", oci_CompartmentName='"shop"\nproduction')
        return row


def main():
    parser = argparse.ArgumentParser(description=__doc__, formatter_class=argparse.RawDescriptionHelpFormatter)
    parser.add_argument("folder", metavar="FOLDER", help="where the exports are written; it is made where it isn't there")
    parser.add_argument("--dialects", action="store_true", help="writes the exports that have a form of their own")
    options = parser.parse_args()
    folder = options.folder
    os.makedirs(folder, exist_ok=True)
    for provider in (Gcp,) if options.dialects else (Amazon, Microsoft, Google, Oracle):
        provider().write(os.path.join(folder, provider.__name__.lower() + ".csv"))
    return 0


if __name__ == "__main__":
    sys.exit(main())
