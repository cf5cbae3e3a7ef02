"""The buses that `test` parts, freezes and kills: nodes of NATS with connections that it can cut, and mock brokers."""

import asyncio
import http.client
import json
import signal
import urllib.request

from children import HOST, LONG, Failure, MockBrokers, NatsServer, check, comes

BROKERS = 3
# How many seconds nodes that were just started, or troubled, may take to agree before they are started again, and how
# often they are.
PATIENCE, TRIES = 150, 10
# A port at which nobody is.
NOWHERE = 1


def files_of(log):
    """The files of a collector's log, in their order."""
    return sorted(log.glob("*.log"))


def size_of(log):
    return sum(file.stat().st_size for file in files_of(log))


async def growing(logs):
    """Goes on until these files haven't grown for three minutes."""
    quiet, before = 0, None
    while quiet < 720:
        yield
        await asyncio.sleep(0.25)
        sizes = [size_of(log) for log in logs]
        quiet, before = quiet + 1 if sizes == before else 0, sizes


class Proxy:
    """A port whose connections go on to another one, until they are held or cut. `target` answers which, or None. With
    a context, clients have to speak TLS.
    """

    def __init__(self, target, context=None):
        self.target, self.context, self.writers, self.is_cut = target, context, set(), False
        self.flows = asyncio.Event()
        self.flows.set()

    async def start(self):
        self.server = await asyncio.start_server(self.accept, HOST, 0, ssl=self.context)
        self.port = self.server.sockets[0].getsockname()[1]

    async def accept(self, reader, writer):
        try:
            # (A connection to a port at which nobody listens may get that very port as its own, and then reach itself.)
            if self.is_cut or self.target() is None:
                raise OSError
            there, here = await asyncio.open_connection(HOST, self.target())
        except OSError:
            writer.close()
            return
        ends = {writer, here}
        self.writers |= ends
        try:
            await asyncio.gather(self.pump(reader, here), self.pump(there, writer))
        except asyncio.CancelledError:
            pass  # the test ends
        self.writers -= ends

    async def pump(self, reader, writer):
        try:
            while data := await reader.read(1 << 16):
                await self.flows.wait()
                writer.write(data)
                await writer.drain()
        except OSError:
            pass
        writer.close()

    def cut(self):
        self.is_cut = True
        for writer in self.writers:
            writer.transport.abort()

    def hold(self):
        self.flows.clear()

    def open(self):
        self.is_cut = False
        self.flows.set()


class Node:
    """A server of NATS. Its clients, and each other node, reach it by proxies, whatever its own ports are."""

    def __init__(self, number, folder):
        self.name, self.folder = f"node{number}", folder / f"node{number}"
        self.folder.mkdir()
        self.clients, self.routes, self.server = Proxy(lambda: self.port("clients")), {}, None

    def port(self, of):
        """The port of the running node, or None."""
        return self.server.ports.get(of) if self.server and self.server.child.is_running() else None

    async def know(self, others):
        """Makes the proxies, and writes down what the node has to know."""
        self.routes = {other.name: Proxy(lambda other=other: other.port("routes")) for other in others}
        for proxy in [self.clients, *self.routes.values()]:
            await proxy.start()
        self.configure()

    def configure(self):
        """It knows the others by their proxies alone, and tells them a port at which nobody is."""
        lines = [f"server_name: {self.name}", f'http: "{HOST}:-1"']
        lines += ['ping_interval: "2s"', "ping_max: 2", 'write_deadline: "2s"']
        lines.append(f'jetstream {{ store_dir: "{self.folder}/js", max_mem: 64M, max_file: 2G }}')
        if self.routes:
            routes = ", ".join(f"nats-route://{HOST}:{proxy.port}" for proxy in self.routes.values())
            here = f'listen: "{HOST}:-1", advertise: "{HOST}:{NOWHERE}", no_advertise: true'
            lines.append(f"cluster {{ name: fleet, {here}, routes: [{routes}] }}")
        listens = ["clients", "monitor"] + ["routes"] * bool(self.routes)
        self.server = NatsServer(self.name, self.folder, lines, listens)

    @property
    def child(self):
        return self.server.child

    async def start(self):
        self.server.ports = {}
        await self.server.start_beside()

    def asked(self):
        """What its monitor tells of JetStream, or nothing."""
        try:
            place = f"http://{HOST}:{self.port('monitor')}/jsz?streams=1&consumers=1"
            with urllib.request.urlopen(place, timeout=20) as answer:
                return json.load(answer)
        except (OSError, ValueError, http.client.HTTPException):
            return {}


def stream_of(told):
    """The bus's stream, by what a node tells of JetStream, or None."""
    streams = [stream for account in told.get("account_details", []) for stream in account.get("stream_detail", [])]
    return streams[0] if len(streams) == 1 else None


class Nats:
    """So many nodes, each with a copy of the bus's stream."""

    # What isn't acknowledged comes again after so many milliseconds.
    of_collectors = ("--retry", 1500)
    of_hosts = ("--rate", 400)

    def __init__(self, folder, count):
        self.folder, self.count, self.ways = folder, count, []

    async def start(self):
        """Makes the nodes, and makes them anew if they don't agree on a leader."""
        for number in range(TRIES):
            await self.make(self.folder / f"nodes{number}")
            if await self.soon(self.has_leader):
                return
            print(f"fleet: no leader after {PATIENCE} seconds, so the nodes are made anew: {self.told}", flush=True)
            for node in self.nodes:
                node.child.kill()
        raise Failure("the nodes never agree on a leader")

    async def make(self, folder):
        folder.mkdir()
        self.nodes = [Node(number, folder) for number in range(self.count)]
        for node in self.nodes:
            await node.know([other for other in self.nodes if other is not node])
        servers = ",".join(f"nats://{HOST}:{node.clients.port}" for node in self.nodes)
        self.words = ["--servers", servers, "--copies", self.count]
        await asyncio.gather(*(node.start() for node in self.nodes))

    async def restart(self):
        for node in self.nodes:
            node.child.signal(signal.SIGTERM)
        if not await self.soon(self.is_down):
            for node in self.nodes:
                node.child.kill()
        await asyncio.gather(*(node.start() for node in self.nodes))

    async def soon(self, holds):
        """Whether this comes about while a patient one waits."""
        clock = asyncio.get_running_loop().time
        end = clock() + PATIENCE
        while not await holds():
            if clock() > end:
                return False
            await asyncio.sleep(0.25)
        return True

    def links(self, node):
        """The proxies between this node and the others."""
        return [*node.routes.values(), *(other.routes[node.name] for other in self.nodes if other is not node)]

    async def ask(self):
        """What each node tells of JetStream, by the node's name."""
        answers = await asyncio.gather(*(asyncio.to_thread(node.asked) for node in self.nodes))
        self.told = {node.name: answer for node, answer in zip(self.nodes, answers)}
        return self.told

    async def streams(self):
        """What each node tells of the stream, by the node's name."""
        streams = {name: stream_of(told) for name, told in (await self.ask()).items()}
        return {name: stream for name, stream in streams.items() if stream}

    async def has_leader(self):
        """Whether all nodes know one leader, which knows them all."""
        told = await self.ask()
        groups = {name: answer.get("meta_cluster", {}) for name, answer in told.items()}
        [leader, *others] = {group.get("leader") for group in groups.values()}
        replicas = groups.get(leader, {}).get("replicas", [])
        is_known = len(replicas) == self.count - 1 and all(each.get("current") for each in replicas)
        return all(told.values()) and (self.count == 1 or (is_known and not others))

    async def is_down(self):
        return not any(node.child.is_running() for node in self.nodes)

    async def is_whole(self):
        """Whether the stream has a leader, and all of its copies are up to date."""
        streams = await self.streams()
        for name, stream in streams.items():
            cluster = stream.get("cluster", {})
            if len(streams) == len(self.nodes) and cluster.get("leader", name) == name:
                replicas = cluster.get("replicas", [])
                return len(replicas) == len(self.nodes) - 1 and all(each.get("current") for each in replicas)
        return False

    async def whole(self):
        """Waits until the bus is whole. Nodes that don't come to it are started again, as whoever runs them would."""
        for _ in range(TRIES):
            if await self.soon(self.is_whole):
                return
            print(f"fleet: the bus isn't whole after {PATIENCE} seconds, and is started again: {self.told}", flush=True)
            await self.restart()
        raise Failure("the bus isn't whole, however often it is started")

    async def stored(self):
        """How many messages each node has of the stream."""
        return {name: stream["state"]["messages"] for name, stream in (await self.streams()).items()}

    async def owed(self):
        """How many messages each consumer hasn't acknowledged, as its leader tells."""
        owed = {}
        for name, stream in (await self.streams()).items():
            for consumer in stream.get("consumer_detail") or []:
                if consumer.get("cluster", {}).get("leader", name) == name:
                    owed[consumer["name"]] = consumer["num_pending"] + consumer["num_ack_pending"]
        return owed

    async def drained(self, readers, logs):
        """Waits until all readers have acknowledged all, or, if a node's sum is wrong, nothing comes any more."""
        async for _ in growing(logs):
            owed = await self.owed()
            if readers <= owed.keys() and not any(owed[reader] for reader in readers):
                return
        print(f"fleet: nothing comes any more, though {owed} is owed: {self.told}", flush=True)

    async def trouble(self, rng):
        """One fault, then a wait until all copies are up to date: so two of three nodes have all. Answers its name."""
        if not self.ways:
            self.ways = [self.cut_clients, self.hold_clients, self.lose_clients]
            if len(self.nodes) > 1:
                self.ways += [self.kill, self.freeze, self.cut_links, self.hold_links]
        way = self.ways.pop(rng.randrange(len(self.ways)))
        leaders = [stream.get("cluster", {}).get("leader") for stream in (await self.streams()).values()]
        named = [node for node in self.nodes if node.name in leaders]
        done = await way(rng.choice(named if named and rng.random() < 0.5 else self.nodes), rng.uniform(1, 4))
        await self.whole()
        return done

    async def kill(self, node, seconds):
        node.child.kill()
        await asyncio.sleep(seconds)
        await node.start()
        return "nodes killed"

    async def freeze(self, node, seconds):
        await node.child.frozen(seconds + 1)
        return "nodes frozen"

    async def cut_links(self, node, seconds):
        return await self.closed(self.links(node), Proxy.cut, seconds)

    async def hold_links(self, node, seconds):
        return await self.closed(self.links(node), Proxy.hold, seconds)

    async def cut_clients(self, node, seconds):
        return await self.closed([node.clients], Proxy.cut, seconds)

    async def hold_clients(self, node, seconds):
        return await self.closed([node.clients], Proxy.hold, seconds)

    async def lose_clients(self, node, seconds):
        """What is on the way is lost."""
        node.clients.hold()
        await asyncio.sleep(seconds)
        return await self.closed([node.clients], Proxy.cut, 1)

    async def closed(self, proxies, way, seconds):
        for proxy in proxies:
            way(proxy)
        await asyncio.sleep(seconds)
        for proxy in proxies:
            proxy.open()
        return "partitions"


class Kafka:
    """Three brokers of librdkafka's mock cluster."""

    of_collectors = ()
    # (A mock broker drops what is above 5 MB a partition: that is for many minutes.)
    of_hosts = ("--rate", 100)

    def __init__(self, folder, program):
        self.brokers = MockBrokers(folder, program)

    async def start(self):
        self.brokers.begin()
        await comes(self.brokers.is_there, "brokers are there", self.brokers.child)
        self.words = ["--servers", self.brokers.servers, "--property", "client.id=fleet"]
        self.words += ["--property", "metadata.max.age.ms=60000"]

    async def whole(self):
        pass

    async def stored(self):
        return {}

    async def owed(self, reader):
        """How many messages a group hasn't committed."""
        answer = self.brokers.asked(f"owed {reader}")
        return int((await comes(answer, f"what {reader} hasn't committed", self.brokers.child))[1])

    async def drained(self, readers, logs):
        """Waits until all groups have committed all. One whose member was killed has to wait for its session to end."""
        clock = asyncio.get_running_loop().time
        end = clock() + LONG
        while any((owed := {reader: await self.owed(reader) for reader in sorted(readers)}).values()):
            check(clock() < end, f"groups don't get what is left: {owed}")
            await asyncio.sleep(0.5)

    async def trouble(self, rng):
        """One fault: a broker that is away, or answers that come late. Answers its name."""
        broker = rng.randint(1, BROKERS)
        begin, end, name = rng.choice(
            [(f"down {broker}", f"up {broker}", "brokers away"), ("delay 400", "delay 0", "answers late")]
        )
        self.brokers.tell(begin)
        await asyncio.sleep(rng.uniform(1, 4))
        self.brokers.tell(end)
        await asyncio.sleep(1)
        return name
