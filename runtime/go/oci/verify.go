package oci

import (
	"context"
	"runtime"
	"sync"
)

// verify hashes every blob that is there and was not hashed yet, on all cores, with one buffer each. What does not match is damaged.
func (s *Store) verify(ctx context.Context, progress func(done, all int64)) error {
	var all, done int64
	for k := range s.Blobs[1:] {
		blob := &s.Blobs[1+k]
		if all += blob.Size; blob.hashed {
			done += blob.Size
		}
	}
	var lock sync.Mutex
	next := 0
	take := func() *Blob {
		lock.Lock()
		defer lock.Unlock()
		if next++; next < len(s.Blobs) {
			return &s.Blobs[next]
		}
		return nil
	}
	count := func(n int) {
		lock.Lock()
		defer lock.Unlock()
		if done += int64(n); progress != nil {
			progress(done, all)
		}
	}
	var workers sync.WaitGroup
	for worker := 0; worker < runtime.GOMAXPROCS(0); worker++ {
		workers.Add(1)
		go func() {
			defer workers.Done()
			buffer := make([]byte, 1<<17)
			for blob := take(); blob != nil && ctx.Err() == nil; blob = take() {
				if blob.hashed || blob.absent || blob.foreign || blob.damage != nil && blob.damage.content {
					continue
				}
				if _, err := s.hash(ctx, blob, buffer, count); err != nil {
					blob.damage = &Damage{blob.Digest, err, true}
				}
			}
		}()
	}
	workers.Wait()
	return ctx.Err()
}
