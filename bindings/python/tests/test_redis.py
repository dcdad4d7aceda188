"""Tables over redis-servers on loopback: one, and a cluster of three, one of which is stopped."""

from __future__ import annotations

import logging
import unittest
from typing import Any

import fullercoral as fc

from . import servers

try:
    import redis
    from redis.cluster import ClusterNode, RedisCluster
except ImportError:
    redis = None  # type: ignore[assignment]

ROWS = 4000


def client_of(ports: list[int]) -> Any:
    """Returns a client of redis-py, or that of these tests if redis-py is missing."""
    if redis is None:
        return servers.TinyRedis(ports)
    if len(ports) == 1:
        return redis.Redis(port=ports[0], socket_timeout=10)
    nodes = [ClusterNode("127.0.0.1", port) for port in ports]
    return RedisCluster(startup_nodes=nodes, socket_timeout=10, cluster_error_retry_attempts=1)


@unittest.skipUnless(servers.has_redis_server(), "skipped: there is no redis-server")
class OverRedis(unittest.TestCase):
    def setUp(self) -> None:
        logging.getLogger("redis.cluster").setLevel(logging.CRITICAL)

    def table(self, ports: list[int]) -> fc.Table:
        client = client_of(ports)
        self.addCleanup(client.close)
        engine = fc.Redis(client, retries=1, pause=0.01)
        return fc.Table({"sku": str, "quantity": int}, local="64KB", far=engine)

    def load(self, table: fc.Table) -> Any:
        sold = table.watch(fc.totals("quantity", by="sku"))
        skus = [f"sku{index % 7}" for index in range(ROWS)]
        table.extend_columns(sku=skus, quantity=range(ROWS))
        return sold

    def due(self) -> dict[str, fc.Total]:
        parts = {f"sku{index}": range(index, ROWS, 7) for index in range(7)}
        return {key: fc.Total(len(values), sum(values)) for key, values in parts.items()}

    def test_one_server(self) -> None:
        with servers.one_server() as server, self.table([server.port]) as table:
            sold = self.load(table)
            table.evict()
            self.assertEqual(sold.to_dict(), self.due())
            self.assertEqual(table["quantity"].to_list(), list(range(ROWS)))
            self.assertGreater(table.stats().moved.bytes_got, 8 * ROWS)
            client = servers.TinyRedis([server.port])
            self.assertGreater(client.call("DBSIZE"), 100)
            table.close()
            self.assertEqual(client.call("DBSIZE"), 0)
            client.close()

    def test_a_server_that_is_stopped_and_comes_back(self) -> None:
        with servers.one_server() as server, self.table([server.port]) as table:
            sold = self.load(table)
            table.evict()
            server.stop()
            self.refused_and_nothing_lost(table, sold)
            server.start()
            self.goes_on(table, sold)

    def test_a_cluster_of_three_of_which_one_is_stopped(self) -> None:
        with servers.cluster_of_three() as three:
            with self.table([server.port for server in three]) as table:
                sold = self.load(table)
                table.evict()
                for server in three:
                    client = servers.TinyRedis([server.port])
                    self.assertGreater(client.call("DBSIZE"), 10)
                    client.close()
                three[1].stop()
                self.refused_and_nothing_lost(table, sold)
                three[1].start()
                for server in three:
                    servers.wait_for_cluster(server)
                self.goes_on(table, sold)

    def refused_and_nothing_lost(self, table: fc.Table, sold: Any) -> None:
        failed = 0
        for place in range(0, ROWS, 500 if redis else 100):
            try:
                self.assertEqual(table[place].quantity, place)
            except fc.EngineError as error:
                self.assertIsNotNone(error.__cause__)
                failed += 1
        self.assertGreater(failed, 0)
        self.assertEqual(sold.to_dict(), self.due())
        self.assertEqual(len(table), ROWS)

    def goes_on(self, table: fc.Table, sold: Any) -> None:
        table.set(100, "quantity", 0)
        table.set(100, "quantity", 100)
        self.assertEqual(table["quantity"].to_list(), list(range(ROWS)))
        self.assertEqual(sold.to_dict(), self.due())


if __name__ == "__main__":
    unittest.main()
