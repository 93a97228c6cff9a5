"""Three years of four weather stations: how cold a day of each month is, and how often it freezes while it rains.

It reads the row files of examples/weather, asks an index, and draws what it answered. Cells are divided by `# %%`, so
that an editor runs them one by one.

usage: python3 python/examples/weather.py [PICTURE]      the picture is weather.png where it is not named
"""

# %% The rows: four files with other orders of columns, of which the fields that are no numbers are no rows.
import glob
import os
import sys

import matplotlib
import pandas as pd

import bsi

matplotlib.use("Agg")
import matplotlib.pyplot as plt  # noqa: E402

HERE = os.path.dirname(os.path.abspath(__file__))
FILES = sorted(glob.glob(os.path.join(HERE, "..", "..", "examples", "weather", "*.csv")))


def station(path):
    """Returns the days of a station, with the temperature in degrees."""
    frame = pd.read_csv(path, dtype=str)
    numbers = frame.apply(pd.to_numeric, errors="coerce")
    good = numbers[(numbers.notna() | frame.isna()).all(axis=1)]
    day = pd.Timestamp("2023-01-01") + pd.to_timedelta(good["day"], unit="D")
    return pd.DataFrame(
        {
            "station": os.path.basename(path).partition(".")[0],
            "day": day,
            "month": day.dt.month,
            # (-999 is what a station writes that measured nothing)
            "temp": good["temp"].where(good["temp"] > -999) / 10,
            "rain": good["rain"],
        }
    )


frame = pd.concat([station(path) for path in FILES], ignore_index=True)

# %% The index says what it chose.
index = bsi.Index.from_frame(frame)
print(index)

# %% Questions: each takes some tens of microseconds.
c = bsi.col
months = range(1, 13)
stations = list(index.forms["station"].kind.values)
medians = {
    name: [index.median("temp", (c.station == name) & (c.month == month)) for month in months] for name in stations
}
freezing_rain = (c.temp < 0) & (c.rain > 0)
icy = [index.count((c.month == month) & freezing_rain) for month in months]
coldest = index.least("temp")
print(f"{index.count(freezing_rain)} station days of freezing rain; the coldest day had {coldest} degrees:")
print(frame[index.mask(c.temp == coldest)].to_string(index=False))

# %% The picture.
figure, (above, below) = plt.subplots(2, 1, sharex=True, figsize=(8, 6), constrained_layout=True)
for name in stations:
    above.plot(months, [float(value) for value in medians[name]], marker="o", label=name)
above.axhline(0, color="grey", linewidth=0.8)
above.set_ylabel("median temperature, °C")
above.legend(ncol=len(stations), frameon=False)
below.bar(months, icy, color="#1f5f8b")
below.set_ylabel("station days of freezing rain")
below.set_xlabel("month")
below.set_xticks(list(months))
picture = sys.argv[1] if len(sys.argv) > 1 else "weather.png"
figure.savefig(picture, dpi=120)
print(f"drawn: {picture}")
