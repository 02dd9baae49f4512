package kullneyra

import "fmt"

// Refusal is why a call was refused: the number of the first fault that it found. Beside it every lent slice is as
// it was, and the other results are zero.
type Refusal uint32

func (r Refusal) Error() string {
	if int(r) < len(reasons) && reasons[r] != "" {
		return fmt.Sprintf("refusal %d: %s", uint32(r), reasons[r])
	}
	return fmt.Sprintf("refusal %d", uint32(r))
}

// refused is the call's answer as an error: nil for 0.
func refused(number uint32) error {
	if number == 0 {
		return nil
	}
	return Refusal(number)
}
