package adder

type Adder struct{}

func Recover() *Adder {
	return &Adder{}
}

func (s *Adder) Add(a uint64, b uint64) uint64 {
	return a + b
}
