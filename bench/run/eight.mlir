// Four times over, eight pieces of %A go in at once, each by a tag of its own; each is raised by one as it comes, and goes out
// while the next is worked on.
func.func @eight(%A: memref<512xi32>) {
  %F = memref.alloc() : memref<8x64xi32, 1>
  %T = memref.alloc() : memref<8xi32, 2>
  %n = arith.constant 64 : index
  affine.for %round = 0 to 4 {
    affine.for %h = 0 to 8 {
      affine.dma_start %A[%h * 64], %F[%h, 0], %T[%h], %n : memref<512xi32>, memref<8x64xi32, 1>, memref<8xi32, 2>
    }
    affine.for %h = 0 to 8 {
      affine.dma_wait %T[%h], %n : memref<8xi32, 2>
      affine.for %i = 0 to 64 {
        %0 = affine.load %F[%h, %i] : memref<8x64xi32, 1>
        %c = arith.constant 1 : i32
        %1 = arith.addi %0, %c : i32
        affine.store %1, %F[%h, %i] : memref<8x64xi32, 1>
      }
      affine.dma_start %F[%h, 0], %A[%h * 64], %T[%h], %n : memref<8x64xi32, 1>, memref<512xi32>, memref<8xi32, 2>
    }
    affine.for %h = 0 to 8 {
      affine.dma_wait %T[%h], %n : memref<8xi32, 2>
    }
  }
  memref.dealloc %F : memref<8x64xi32, 1>
  memref.dealloc %T : memref<8xi32, 2>
  return
}
