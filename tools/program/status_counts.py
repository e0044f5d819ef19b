"""What a server with `--http` counts, by mounts and by players."""
import contextlib
import json
import time

from peers import IN, MODES, OUT, Camera, Player, counts, frame, packet, until, wanted
from status_pages import all_in, all_out, answer, pages_of, samples

# More than the peer's buffers hold.
PACKETS, SIZE = 3_000, 12_000

# A description of two tracks.
TWO = b"v=0\r\nm=video 0 RTP/AVP 96\r\na=control:streamid=0\r\nm=audio 0 RTP/AVP 97\r\na=control:streamid=1\r\n"


class TwoTracks(Camera):
    """Records into a mount of two tracks, on channels 0 and 2."""

    def announce(self, url):
        self.url = url
        wanted(self.ask("ANNOUNCE", self.url, body=TWO))
        for track, channels in (0, "0-1"), (1, "2-3"):
            self.set_up(f"{self.url}/streamid={track}", f"interleaved={channels};mode=record")


def is_counted(port, mount, published, players):
    """Whether a mount's packets are all published, and each is counted once for each of these players."""
    values = samples(port)
    came, went = all_in(values, mount), all_out(values, mount)
    return came == {**dict.fromkeys(IN, 0), "published": published} and sum(went.values()) == published * players


def counts_go_on(program, *options):
    """The counts of a mount's name go on when a player leaves, when the mount ends and when it comes back. What a player lost is told."""
    with pages_of(program, "--seats", "4", "--keep", "64", *options) as (server, port):
        for round in 1, 2:
            with Camera(server) as camera, Player(server) as player, Player(server) as stalled:
                for first in range(0, PACKETS, 100):
                    camera.publish(range(first, first + 100), SIZE)
                if not until(10, lambda: all_in(samples(port), "cam")["published"] == round * PACKETS):
                    yield f"round {round}: {samples(port)}"
                values = samples(port)
                if values['vasklun_mount_players{mount="cam"}'] != 2 or values['vasklun_mount_live{mount="cam"}'] != 1:
                    yield f"round {round}: two play and the mount is live, and not {values}"
                before = all_out(values, "cam")
                player.close()
                stalled.close()
                if not until(10, lambda: samples(port)['vasklun_mount_players{mount="cam"}'] == 0):
                    yield f"round {round}: a player that closed has its seat"
                after = all_out(samples(port), "cam")
                if any(after[name] < before[name] for name in OUT):
                    yield f"round {round}: a count falls from {before} to {after}"
                if not until(10, lambda: is_counted(port, "cam", round * PACKETS, 2)):
                    yield f"round {round}: not each packet is counted once for each player: {all_out(samples(port), 'cam')}"
                if not all_out(samples(port), "cam")["lost"]:
                    yield f"round {round}: a player that reads nothing lost nothing"
            if not until(10, lambda: samples(port)['vasklun_mount_live{mount="cam"}'] == 0):
                yield f"round {round}: a mount that has ended is live"
            values = samples(port)
            if all_in(values, "cam") != all_in(values) or all_out(values, "cam") != all_out(values):
                yield f"round {round}: the totals are others than those of the only name: {values}"


def players_are_shown(program, *options):
    """A player and its mount are shown with their addresses and counts."""
    with pages_of(program, *options) as (server, port), Camera(server) as camera, Player(server) as player:
        camera.publish(range(40))
        if player.numbers(40) != list(range(40)):
            yield "packets don't come"
        if not until(5, lambda: all_out(samples(port), "cam")["sent"] == 40):
            yield f"40 are sent, and not {all_out(samples(port), 'cam')}"
        seen = json.loads(answer(port, "/status.json")[2])
        shown = [(it["mount"], it["peer"], it["sent"], it["lost"], it["behind"], it["waiting"]) for it in seen["players"]]
        if shown != [("cam", player.name(), 40, 0, 0, 0)]:
            yield f"its player is shown as {shown}"
        shown = [(it["name"], it["publisher"], it["players"]) for it in seen["recorded"]]
        if shown != [("cam", camera.name(), 1)]:
            yield f"its mount is shown as {shown}"


def seats_of(values):
    """The samples of players, by the rest of their names."""
    return {key: value for key, value in values.items() if key.startswith(("vasklun_seat_", "vasklun_player_info"))}


def samples_of(player):
    """The samples of a player in seat 0 that was sent 40 packets of 12 bytes."""
    labels = 'mount="cam",seat="0"'
    counts = {f'vasklun_seat_packets_total{{{labels},result="{name}"}}': count for name, count in (("sent", 40), ("skipped", 0), ("lost", 0))}
    of_seat = {f"vasklun_seat_bytes_total{{{labels}}}": 40 * 12}
    of_seat |= {f"vasklun_seat_{name}_packets{{{labels}}}": 0 for name in ("behind", "waiting")}
    return {**counts, **of_seat, f'vasklun_player_info{{{labels},peer="{player.name()}"}}': 1}


def players_have_samples(program, *options):
    """With `--http-players` each player that has a seat has its samples. A seat that is taken of a mount and of the one after it has
    those of the later player."""
    with pages_of(program, "--http-players", "--keep-ended", "--seats", "1", *options) as (server, port):
        players = []
        for round in 1, 2:
            with Camera(server) as camera:
                players.append(Player(server))
                camera.publish(range(40))
                if players[-1].numbers(40) != list(range(40)):
                    yield f"round {round}: packets don't come"
                if not until(5, lambda: seats_of(samples(port)) == samples_of(players[-1])):
                    yield f"round {round}: {seats_of(samples(port))}, and not {samples_of(players[-1])}"
            if not until(5, lambda: samples(port)['vasklun_mount_live{mount="cam"}'] == 0):
                yield f"round {round}: a mount whose camera closed is live"
        for player in players:
            player.close()
        if not until(5, lambda: not seats_of(samples(port))):
            yield f"a player that closed has samples: {seats_of(samples(port))}"


def players_have_none_unasked(program):
    """Without `--http-players` no player has samples."""
    with pages_of(program) as (server, port), Camera(server), Player(server):
        if not until(5, lambda: samples(port).get('vasklun_mount_players{mount="cam"}') == 1):
            yield "a player that plays isn't counted"
        if seats_of(samples(port)):
            yield f"players have samples: {seats_of(samples(port))}"


def skipped_are_counted(program, *options):
    """What a player skips is counted while it plays, and goes on after it has left."""
    with pages_of(program, *options) as (server, port), TwoTracks(server) as camera, Player(server) as player:
        for number in range(40):
            camera.send(frame(packet(number)) + frame(packet(number), 2))
        if player.numbers(40) != list(range(40)):
            yield "packets don't come"
        wanted = {**dict.fromkeys(OUT, 0), "sent": 40, "skipped": 40}
        for _ in range(2):
            if not until(5, lambda: all_out(samples(port), "cam") == wanted and all_out(samples(port)) == wanted):
                yield f"{wanted}, and not {all_out(samples(port), 'cam')}"
            player.close()
            until(5, lambda: samples(port)['vasklun_mount_players{mount="cam"}'] == 0)


def shown_sums(port):
    """What was sent, skipped and lost to each player and waits for it, added up, the least first."""
    shown = json.loads(answer(port, "/status.json")[2])["players"]
    return sorted(sum(it[word] for word in ("sent", "skipped", "lost", "waiting")) for it in shown)


def waiting_begins_with_each_player(program, *options):
    """What waits for a player counts from its own start: that of a later one in another seat, and of one that takes a seat again."""
    with pages_of(program, *options) as (server, port), TwoTracks(server) as camera, Player(server) as first:
        camera.publish(range(30))
        if not until(5, lambda: shown_sums(port) == [30]):
            yield f"of 30 packets is shown {shown_sums(port)}"
        with Player(server) as second:
            camera.publish(range(30, 50))
            if not until(5, lambda: shown_sums(port) == [20, 50]):
                yield f"of 50 and of 20 packets is shown {shown_sums(port)}"
            first.numbers(50)
            wanted(first.ask("PAUSE", first.url))
            wanted(first.play())
            camera.publish(range(50, 55))
            if not until(5, lambda: shown_sums(port) == [5, 25]):
                yield f"of 5 packets since a second PLAY, and of 25, is shown {shown_sums(port)}"
            second.numbers(25)


def shown_player(port):
    """The only player that is shown."""
    return json.loads(answer(port, "/status.json")[2])["players"][0]


def waiting_adds_up(program, *options):
    """What waits for a player is what was published since its start, less what was sent, skipped and lost. As it leaves, its account has
    as many packets."""
    total = 2 * PACKETS
    with pages_of(program, "--keep", "64", "--verbose", *options) as (server, port), TwoTracks(server) as camera:
        camera.publish(range(40))
        until(5, lambda: all_in(samples(port), "cam")["published"] == 40)
        with Player(server) as player:
            name = player.name()
            for number in range(PACKETS):
                camera.send(frame(packet(number, SIZE)) + frame(packet(number), 2))
            if not until(10, lambda: all_in(samples(port), "cam")["published"] == 40 + total):
                yield f"not all is published: {all_in(samples(port), 'cam')}"
            adds_up = lambda it: sum(it[word] for word in ("sent", "skipped", "lost", "waiting")) == total
            if not until(5, lambda: adds_up(shown_player(port))):
                yield f"of {total} packets is shown {shown_player(port)}"
            shown = shown_player(port)
            if not all(shown[word] for word in ("sent", "skipped", "lost", "waiting")):
                yield f"{PACKETS} packets of each track, of which none is read, are shown as {shown}"
        if not until(10, lambda: sum(counts(server, name, "player of cam").get(word, 0) for word in OUT) == total):
            yield f"of {total} packets its account has {counts(server, name, 'player of cam')}"


def each_mount_has_its_own(program, *options):
    """Each name has the counts of its own mount and its own players, with regular reports, too; they don't fall when these end."""
    lost = {}
    with pages_of(program, "--keep", "64", "--report", "1", *options) as (server, port):
        with contextlib.ExitStack() as held:
            cameras = {name: held.enter_context(Camera(server, name)) for name in ("one", "two", "twofold")}
            players = {name: [held.enter_context(Player(server, name)) for _ in range(count)] for name, count in (("one", 1), ("two", 2), ("twofold", 0))}
            for number in range(500):
                for name, camera in cameras.items():
                    camera.publish([number] * len(name), 1_000)
            published = {name: 500 * len(name) for name in cameras}

            def is_counted(name):
                values = samples(port)
                came, went = all_in(values, name), all_out(values, name)
                return came["published"] == published[name] and went["sent"] + went["lost"] <= published[name] * len(players[name])

            time.sleep(2.5)
            for name in cameras:
                if not until(5, lambda: is_counted(name)):
                    yield f"{name}: {all_in(samples(port), name)} {all_out(samples(port), name)}"
            before = samples(port)
            for name in "two", "one":
                players[name].pop(0).close()
                time.sleep(0.3)
            values = samples(port)
            if any(values[key] < before[key] for key in before if "_total" in key):
                yield f"a count falls from {before} to {values}"
            played = {"one": 1, "two": 2, "twofold": 0}
        if not until(10, lambda: all(samples(port)[f'vasklun_mount_live{{mount="{name}"}}'] == 0 for name in played)):
            yield "a mount that has ended is live"
        if not until(10, lambda: all(sum(all_out(samples(port), name).values()) == published[name] * count for name, count in played.items())):
            yield f"{[(name, all_in(samples(port), name), all_out(samples(port), name)) for name in played]}"
        values = samples(port)
        for name in played:
            if all_in(values, name) != {**dict.fromkeys(IN, 0), "published": published[name]}:
                yield f"{name}: {all_in(values, name)}"
        for of in all_in, all_out:
            sums = {word: sum(of(values, name)[word] for name in played) for word in of(values)}
            if of(values) != sums:
                yield f"the totals are {of(values)}, and the names' sums {sums}"


def most_names(program):
    """The 257th name takes the place of the one that ended first; the page has 256 names, and the totals have all."""
    with pages_of(program) as (server, port):
        with Camera(server, "live") as first:
            first.publish([1])
            for number in range(260):
                with Camera(server, f"cam{number}") as camera:
                    camera.publish([1])
            wanted = {"live", *(f"cam{number}" for number in range(5, 260))}
            shown = lambda: {key.split('"')[1] for key in samples(port) if key.startswith("vasklun_mount_live")}
            if not until(5, lambda: shown() == wanted and all_in(samples(port))["published"] == 261):
                yield f"names {len(shown())}: too many {sorted(shown() - wanted)[:5]}, missing {sorted(wanted - shown())[:5]}; {all_in(samples(port))}"
            if len(json.loads(answer(port, "/status.json")[2])["mounts"]) != 256:
                yield "the figures have other names"


def figures_are_shared(program):
    """Who asks often is shown the figures of the last 250 ms: at most four are made in a second."""
    with pages_of(program) as (server, port), Camera(server) as camera:
        shown, number, begun = [], 0, time.monotonic()
        while (passed := time.monotonic() - begun) < 2:
            camera.publish([number])
            number += 1
            shown.append(all_in(samples(port))["published"])
            time.sleep(0.01)
        if not 2 <= len(set(shown)) <= 4 * passed + 2:
            yield f"{len(shown)} pages of {passed:.1f} s have {len(set(shown))} figures"


PARTS = [(part, ()) for part in (players_have_none_unasked, most_names, figures_are_shared)]
PARTS += [(part, options) for part in (counts_go_on, players_are_shown, skipped_are_counted, waiting_adds_up, waiting_begins_with_each_player, each_mount_has_its_own, players_have_samples) for options in MODES]
