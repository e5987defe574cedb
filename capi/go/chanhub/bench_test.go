package chanhub_test

import (
	"testing"

	"chanhub/chanhub"
)

// benchmark measures what a value costs that one goroutine sends and receives again, count at a time.
func benchmark(b *testing.B, count int, pass func(c *chanhub.Chan[int], seat *chanhub.Seat) error) {
	hub, err := chanhub.OpenEndless(chanhub.Edition2, 1, 100_000, chanhub.Chapters{})
	if err != nil {
		b.Fatal(err)
	}
	defer hub.Close()
	seat := hub.Seat(0)
	c, err := chanhub.MakeChan[int](seat, 64)
	if err != nil {
		b.Fatal(err)
	}
	b.ReportAllocs()
	b.ResetTimer()
	for i := 0; i < b.N; i += count {
		if err := pass(c, seat); err != nil {
			b.Fatal(err)
		}
	}
}

func BenchmarkSeat(b *testing.B) {
	benchmark(b, 1, func(c *chanhub.Chan[int], seat *chanhub.Seat) error {
		if err := seat.Send(c.Port(), chanhub.Number(7)); err != nil {
			return err
		}
		_, err := seat.Recv(c.Port())
		return err
	})
}

func BenchmarkSeat64AtOnce(b *testing.B) {
	values := make([]chanhub.Value, 64)
	benchmark(b, len(values), func(c *chanhub.Chan[int], seat *chanhub.Seat) error {
		if _, err := seat.SendAll(c.Port(), values); err != nil {
			return err
		}
		_, err := seat.RecvUpTo(c.Port(), values)
		return err
	})
}

func BenchmarkChan(b *testing.B) {
	benchmark(b, 1, func(c *chanhub.Chan[int], seat *chanhub.Seat) error {
		if err := c.Send(seat, 7); err != nil {
			return err
		}
		_, err := c.Recv(seat)
		return err
	})
}

func BenchmarkChan64AtOnce(b *testing.B) {
	values := make([]int, 64)
	benchmark(b, len(values), func(c *chanhub.Chan[int], seat *chanhub.Seat) error {
		if _, err := c.SendAll(seat, values); err != nil {
			return err
		}
		_, err := c.RecvUpTo(seat, values)
		return err
	})
}

func BenchmarkTries(b *testing.B) {
	benchmark(b, 1, func(c *chanhub.Chan[int], seat *chanhub.Seat) error {
		if _, err := c.TrySend(seat, 7); err != nil {
			return err
		}
		_, _, err := c.TryRecv(seat)
		return err
	})
}
