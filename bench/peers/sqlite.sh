#!/bin/sh
# The job by SQLite's shell: the export imported as texts into a table in memory, then one report in SQL.
#
#     bench/peers/sqlite.sh exact export.csv 2024-09-01T00:00Z 2024-10-01T00:00Z
#
# `exact` makes whole nanos of the texts, half to even, in SQL; `float` sums doubles, as most queries do.
# It checks no rule of a row, and compares times as texts, which serves for times in UTC alone.
set -eu
case ${1-} in
-h | --help)
    sed -n '2,/^set/s/^# \{0,1\}//p' "$0"
    exit 0
    ;;
esac
how=$1 export=$2
low=$(printf %.16s "$3") high=$(printf %.16s "$4")

# An amount without exponent, from the text COLUMN: the point is moved by as many places as its exponent says.
plain() {
    sed "s/COLUMN/$1/g" <<'SQL'
CASE WHEN instr(COLUMN, 'e') + instr(COLUMN, 'E') = 0 THEN COLUMN ELSE (
  SELECT sign || CASE
    WHEN point <= 0 THEN '0.' || substr(zeros, 1, -point) || digits
    WHEN point >= length(digits) THEN digits || substr(zeros, 1, point - length(digits))
    ELSE substr(digits, 1, point) || '.' || substr(digits, point + 1) END
  FROM (SELECT sign, zeros, replace(mantissa, '.', '') AS digits, instr(mantissa || '.', '.') - 1 + exponent AS point
    FROM (SELECT CASE substr(COLUMN, 1, 1) WHEN '-' THEN '-' ELSE '' END AS sign,
        ltrim(substr(COLUMN, 1, e - 1), '+-') AS mantissa, CAST(substr(COLUMN, e + 1) AS INTEGER) AS exponent,
        '00000000000000000000000000000000000000000000000000000000000000000000000000000000' AS zeros
      FROM (SELECT instr(lower(COLUMN), 'e') AS e)))) END
SQL
}

# The nanos of an amount without exponent: nine decimals as a whole number, then one more or less by the rest.
nanos() {
    sed "s/COLUMN/$1/g" <<'SQL'
CAST(substr(COLUMN, 1, instr(COLUMN || '.', '.') - 1)
  || substr(substr(COLUMN, instr(COLUMN || '.', '.') + 1) || '000000000', 1, 9) AS INTEGER)
+ CASE substr(COLUMN, 1, 1) WHEN '-' THEN -1 ELSE 1 END
  * CASE WHEN substr(COLUMN, instr(COLUMN || '.', '.') + 10) < '5' THEN 0
      WHEN rtrim(substr(COLUMN, instr(COLUMN || '.', '.') + 10), '0') > '5' THEN 1
      ELSE CAST(substr(COLUMN, instr(COLUMN || '.', '.') + 9, 1) AS INTEGER) % 2 END
SQL
}

spelled() {
    echo "printf('%s%d.%09d', CASE WHEN $1 < 0 THEN '-' ELSE '' END, abs($1) / 1000000000, abs($1) % 1000000000)"
}

# A text as a field of a CSV, quoted where it must be.
quoted() {
    echo "CASE WHEN $1 GLOB '*[,\"]*' OR instr($1, char(10)) OR instr($1, char(13)) THEN '\"' || replace($1, '\"', '\"\"') || '\"' ELSE $1 END"
}

in_range="substr(ChargePeriodStart, 1, 16) >= '$low' AND substr(ChargePeriodStart, 1, 16) < '$high'"
# The team of a row: true and false count as these words, null and a missing tag as the empty text.
team="''"
if head -n 1 "$export" | grep -qw Tags; then
    team="CASE WHEN Tags = '' THEN '' ELSE CASE json_type(Tags, '\$.team')
      WHEN 'true' THEN 'true' WHEN 'false' THEN 'false' ELSE coalesce(json_extract(Tags, '\$.team'), '') END END"
fi
{
    echo "PRAGMA temp_store = MEMORY;"
    echo ".mode csv"
    echo ".import '$export' charge"
    echo ".mode list"
    echo "SELECT 'Group,BilledCost,EffectiveCost,ChargedCost';"
    if [ "$how" = exact ]; then
        echo "WITH amounts AS (SELECT $team AS team, $(plain BilledCost) AS billed, $(plain EffectiveCost) AS effective"
        echo "  FROM charge WHERE $in_range),"
        echo "sums AS (SELECT team, sum($(nanos billed)) AS billed, sum($(nanos effective)) AS effective"
        echo "  FROM amounts GROUP BY team)"
        echo "SELECT $(quoted team) || ',' || $(spelled billed) || ',' || $(spelled effective) || ',' || $(spelled effective)"
        echo "  FROM sums ORDER BY team;"
    else
        echo "WITH sums AS (SELECT $team AS team, sum(CAST(BilledCost AS REAL)) AS billed,"
        echo "  sum(CAST(EffectiveCost AS REAL)) AS effective FROM charge WHERE $in_range GROUP BY 1)"
        echo "SELECT $(quoted team) || printf(',%.9f,%.9f,%.9f', billed, effective, effective) FROM sums ORDER BY team;"
    fi
} | sqlite3 -batch :memory:
