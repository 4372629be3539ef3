package meter

type Meter struct {
}

func Recover() *Meter { return &Meter{} }

func (m *Meter) Distance(from uint64, to uint64) uint64 {
	return to - from + 1
}

func (m *Meter) Limit() uint64 {
	return 18446744073709551615
}
