"""Vector files for and from others, beside GDAL where it is installed; places as people write them."""

from __future__ import annotations

import json
import os
import shutil
import subprocess
import unittest
import unittest.mock

from mosaic_store import BadArgument, open_store

from .support import PROGRAM, InFolder, needs

SIDE = 11
HAS_OGR = shutil.which("ogr2ogr") is not None
with_ogr = unittest.skipUnless(HAS_OGR, "ogr2ogr isn't installed")


class Files(InFolder):
    def setUp(self) -> None:
        super().setUp()
        self.path = self.store(SIDE)

    def ogr(self, *words: str) -> str:
        done = subprocess.run(words, cwd=self.folder, capture_output=True, text=True, check=False)
        self.assertEqual((done.returncode, "ERROR" in done.stderr), (0, False), done.stderr)
        return done.stdout

    def write(self, name: str, *geometries: object, crs: str = "") -> None:
        features = [{"type": "Feature", "properties": {}, "geometry": geometry} for geometry in geometries]
        named = {"crs": {"type": "name", "properties": {"name": crs}}} if crs else {}
        (self.folder / name).write_text(json.dumps({"type": "FeatureCollection", **named, "features": features}))

    @with_ogr
    @needs("numpy")
    def test_streams_as_a_shapefile_and_a_geopackage(self) -> None:
        """Every reach is a line, also one of one point, and each file has all of them."""
        done = self.command("hydrology", self.path, "streams", "streams.geojson", "--threshold", "1")
        self.assertEqual((done.returncode, done.stderr), (0, ""))
        features = json.loads((self.folder / "streams.geojson").read_text())["features"]
        lines = [feature["geometry"]["coordinates"] for feature in features]
        self.assertTrue(any(line[0] == line[-1] for line in lines), "one of one point is among them")
        self.ogr("ogr2ogr", "-f", "ESRI Shapefile", "streams.shp", "streams.geojson")
        self.assertIn(f"Feature Count: {len(lines)}\n", self.ogr("ogrinfo", "-so", "-al", "streams.shp"))
        done = self.command("hydrology", self.path, "streams", "streams.gpkg", "--threshold", "1")
        self.assertEqual((done.returncode, done.stderr), (0, ""))
        told = self.ogr("ogrinfo", "-so", "-al", "streams.gpkg")
        for word in (f"Feature Count: {len(lines)}\n", "Geometry: Line String", "Layer name: streams", 'ID["EPSG",4326]', "km2: Real"):
            self.assertIn(word, told)
        self.assertEqual([entry.name for entry in self.folder.glob(".*")], [])

    @needs("numpy")
    def test_other_endings_are_refused(self) -> None:
        for name in ("floods.shp", "floods.kml"):
            self.refused(self.command("hydrology", self.path, "flooded", name), f"{name}: the name of a vector file ends in .geojson")
            self.assertFalse((self.folder / name).exists())
        self.refused(self.command("geojson", self.path, "tiles", "-o", "tiles.shp"), "tiles.shp: the name of a vector file ends in .geojson")
        with unittest.mock.patch.dict(os.environ, {"PATH": "/nowhere"}):
            self.refused(self.command("hydrology", self.path, "flooded", "floods.gpkg"), "need GDAL's ogr2ogr")

    @needs("numpy")
    def test_no_empty_polygon(self) -> None:
        done = self.command("hydrology", self.path, "flooded", "floods.geojson", "--depths", "1", "30000")
        self.assertEqual((done.returncode, done.stderr), (0, ""))
        found = json.loads((self.folder / "floods.geojson").read_text())["features"]
        self.assertTrue(all(feature["geometry"]["coordinates"] for feature in found))
        self.assertLess(len(found), 2)

    @needs("numpy")
    def test_coordinates_of_another_system(self) -> None:
        """Read by ogr2ogr, or named in the refusal. 0.5 N 0.5 E has in UTM 31 an easting of 221723.4 m and a northing of 55307.7."""
        self.write("utm.geojson", {"type": "Point", "coordinates": [221_723.4, 55_307.7]}, crs="urn:ogc:def:crs:EPSG::32631")
        with unittest.mock.patch.dict(os.environ, {"PATH": "/nowhere"}):
            done = self.command("hydrology", self.path, "edit", "utm.geojson", "--wall", "900")
            self.refused(done, "utm.geojson: its coordinates are those of EPSG:32631, and no GeoJSON in degrees was made of it")
        if HAS_OGR:
            self.ogr("ogr2ogr", "lines.gpkg", "utm.geojson")
            for height, name in (("900", "utm.geojson"), ("901", "lines.gpkg")):
                done = self.command("hydrology", self.path, "edit", name, "--wall", height)
                self.assertEqual((done.returncode, done.stderr), (0, ""))
                with open_store(self.path, PROGRAM) as store:
                    self.assertEqual(store.elevation(5, 5), int(height))
        self.write("named.geojson", {"type": "Point", "coordinates": [0.5, 0.5]}, crs="urn:ogc:def:crs:OGC:1.3:CRS84")
        self.assertEqual(self.command("hydrology", self.path, "edit", "named.geojson", "--wall", "950").returncode, 0)

    @with_ogr
    @needs("numpy")
    def test_all_layers_of_a_file(self) -> None:
        """A GPX has its tracks' points in a layer of their own, too: these aren't outlets."""
        self.write("one.geojson", {"type": "Point", "coordinates": [0.5, 0.5]})
        self.write("other.geojson", {"type": "Point", "coordinates": [0.7, 0.5]})
        self.ogr("ogr2ogr", "two.gpkg", "one.geojson")
        self.ogr("ogr2ogr", "-update", "two.gpkg", "other.geojson", "-nln", "a layer (2)")
        track = '<trk><trkseg><trkpt lat="0.2" lon="0.2"/><trkpt lat="0.4" lon="0.2"/></trkseg></trk>'
        (self.folder / "walk.gpx").write_text(f'<gpx version="1.1" creator="x"><wpt lat="0.5" lon="0.5"/>{track}</gpx>')
        (self.folder / "broken.gpkg").write_text("none")
        for name, told in (("two.gpkg", "2 catchments\n"), ("walk.gpx", "1 catchments; 1 feature was passed by, without a point\n")):
            done = self.command("hydrology", self.path, "catchments", "areas.geojson", "--outlets", name)
            self.assertEqual((done.returncode, done.stdout), (0, f"areas.geojson: {told}"), done.stderr)
        for name, told in (("gone.gpkg", "gone.gpkg: No such file"), ("broken.gpkg", "broken.gpkg: it is no GeoJSON")):
            self.refused(self.command("hydrology", self.path, "catchments", "areas.geojson", "--outlets", name), told)

    @needs("numpy")
    def test_outlets_as_tables_have_them(self) -> None:
        """With a byte order mark, lines' ends of Windows, semicolons and commas in numbers; columns keep their values."""
        rows = {"commas": "name,id,latitude,longitude\nford,G7,1.5,0.5\n", "semicolons": "\ufeffname;id;lat;lon\r\nford;G7;1,5;0,5\r\n"}
        for name, text in rows.items():
            (self.folder / f"{name}.csv").write_text(text, encoding="utf-8", newline="")
            done = self.command("hydrology", self.path, "catchments", f"{name}.geojson", "--outlets", f"{name}.csv")
            self.assertEqual((done.returncode, done.stderr), (0, ""))
            (found,) = json.loads((self.folder / f"{name}.geojson").read_text())["features"]
            told = [found["properties"][column] for column in ("name", "id_1", "id", "y", "x")]
            self.assertEqual(told, ["ford", "G7", 1, 15, 5])
        (self.folder / "exchanged.csv").write_text("latitude,longitude\n0.5E,1.5N\n")
        done = self.command("hydrology", self.path, "catchments", "x.geojson", "--outlets", "exchanged.csv")
        self.refused(done, "exchanged.csv: line 2 names no place: '0.5E' is a longitude")

    def test_places_as_people_write_them(self) -> None:
        rows = ("1.5|0.5", "1,5|0,5", "1.5N|0.5E", "1°30'N|0°30'E", "1°30'N 0°30'E", "1.5, 0.5", "0.5E|1.5N", "1.5|N|0.5|E", "15e-1|5e-1")
        found = [self.command("geojson", self.path, "trace", *row.split("|")) for row in rows]
        self.assertEqual({(done.returncode, done.stderr, done.stdout) for done in found}, {(0, "", found[0].stdout)})
        self.refused(self.command("geojson", self.path, "trace", "-1,5", "0,5"), "no tile holds 1.5 S 0.5 E")
        self.refused(self.command("geojson", self.path, "trace", "north", "0.5"), "'north' is no number of degrees", status=2)
        os.symlink(self.path, self.folder / "N01E000")  # a store of a tile's name is no place
        self.assertEqual(self.command("geojson", "--points", "N01E000", "trace", "15", "5").stdout, found[0].stdout)

    def test_true_is_no_number(self) -> None:
        with open_store(self.path, PROGRAM) as store:
            for ask in (lambda: store.fill(True, 2), lambda: store.wall(True, [(5, 5)]), lambda: store.burn(1, [(5, False)])):
                with self.assertRaisesRegex(BadArgument, "a whole number is needed, not (True|False)"):
                    ask()


if __name__ == "__main__":
    unittest.main()
