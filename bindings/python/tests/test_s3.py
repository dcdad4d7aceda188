"""A table over a server that speaks S3: moto's, if it and boto3 are installed."""

from __future__ import annotations

import contextlib
import io
import logging
import unittest

import fullercoral as fc

try:
    import boto3
    from botocore.config import Config
    from moto.server import ThreadedMotoServer
except ImportError:
    boto3 = None  # type: ignore[assignment]


@unittest.skipUnless(boto3, "skipped: boto3 or moto's server is not installed")
class OverS3(unittest.TestCase):
    def setUp(self) -> None:
        logging.getLogger("werkzeug").setLevel(logging.ERROR)
        self.server = ThreadedMotoServer(ip_address="127.0.0.1", port=0)
        with contextlib.redirect_stdout(io.StringIO()):
            self.server.start()
        self.addCleanup(self.server.stop)
        host, port = self.server.get_host_and_port()
        self.client = boto3.client(
            "s3",
            endpoint_url=f"http://{host}:{port}",
            region_name="us-east-1",
            aws_access_key_id="of no use",
            aws_secret_access_key="of no use",
            config=Config(retries={"max_attempts": 1}, connect_timeout=2, read_timeout=2),
        )
        self.client.create_bucket(Bucket="far")
        self.addCleanup(self.client.close)

    def kept(self) -> int:
        return int(self.client.list_objects_v2(Bucket="far")["KeyCount"])

    def test_a_table_over_a_bucket(self) -> None:
        engine = fc.S3(self.client, "far", prefix="orders/")
        with fc.Table({"sku": str, "quantity": int}, local="32KB", far=engine) as table:
            sold = table.watch(fc.totals("quantity"))
            table.extend_columns(sku=["bread"] * 2000, quantity=range(2000))
            table.evict()
            self.assertGreater(self.kept(), 20)
            self.assertEqual(sold.value, fc.Total(2000, sum(range(2000))))
            self.assertEqual(table[1999], ("bread", 1999))
            table.set(0, "sku", "rye")
            self.assertEqual(table["sku"][0:2], ["rye", "bread"])
        self.assertEqual(self.kept(), 0)

    def test_a_bucket_that_is_not_there(self) -> None:
        engine = fc.S3(self.client, "nowhere")
        with fc.Table({"quantity": int}, local="32KB", far=engine) as table:
            table.append((5,))
            with self.assertRaises(fc.EngineError) as caught:
                table.evict("quantity", 0)
            self.assertIn("NoSuchBucket", str(caught.exception))
            self.assertEqual(table[0], (5,))
            engine._kept.clear()


if __name__ == "__main__":
    unittest.main()
