// Each half of %A is doubled in fast memory; the other half is under way meanwhile.
func.func @twice(%A: memref<8xi32>) {
  %F = memref.alloc() : memref<2x4xi32, 1>
  %T = memref.alloc() : memref<2xi32, 2>
  %n = arith.constant 4 : index
  affine.dma_start %A[0], %F[0, 0], %T[0], %n : memref<8xi32>, memref<2x4xi32, 1>, memref<2xi32, 2>
  affine.dma_start %A[4], %F[1, 0], %T[1], %n : memref<8xi32>, memref<2x4xi32, 1>, memref<2xi32, 2>
  affine.for %h = 0 to 2 {
    affine.dma_wait %T[%h], %n : memref<2xi32, 2>
    affine.for %i = 0 to 4 {
      %0 = affine.load %F[%h, %i] : memref<2x4xi32, 1>
      %1 = arith.addi %0, %0 : i32
      affine.store %1, %F[%h, %i] : memref<2x4xi32, 1>
    }
    affine.dma_start %F[%h, 0], %A[%h * 4], %T[%h], %n : memref<2x4xi32, 1>, memref<8xi32>, memref<2xi32, 2>
  }
  affine.dma_wait %T[0], %n : memref<2xi32, 2>
  affine.dma_wait %T[1], %n : memref<2xi32, 2>
  memref.dealloc %F : memref<2x4xi32, 1>
  memref.dealloc %T : memref<2xi32, 2>
  return
}
---
A = 1 2 3 4 5 6 7 8
