; ModuleID = 'correction'
source_filename = "correction"
target triple = "x86_64-unknown-linux-gnu"

%Qubit = type opaque
%Result = type opaque

@0 = internal constant [4 x i8] c"bit\00"

define void @Correction__Main() #0 {
entry:
  %a = call %Qubit* @__quantum__rt__qubit_allocate()
  %b = call %Qubit* @__quantum__rt__qubit_allocate()
  %c = call %Qubit* @__quantum__rt__qubit_allocate()
  ; a 1 on three qubits, and an error on the second
  call void @__quantum__qis__x__body(%Qubit* %a)
  call void @__quantum__qis__cnot__body(%Qubit* %a, %Qubit* %b)
  call void @__quantum__qis__cnot__body(%Qubit* %a, %Qubit* %c)
  call void @__quantum__qis__x__body(%Qubit* %b)
  ; both parities differ where the second is wrong
  %0 = call i1 @Correction__Parity(%Qubit* %a, %Qubit* %b)
  %1 = call i1 @Correction__Parity(%Qubit* %b, %Qubit* %c)
  %2 = and i1 %0, %1
  br i1 %2, label %then, label %continue

then:                                             ; preds = %entry
  call void @__quantum__qis__x__body(%Qubit* %b)
  br label %continue

continue:                                         ; preds = %then, %entry
  %3 = call %Result* @__quantum__qis__m__body(%Qubit* %b)
  call void @__quantum__rt__result_record_output(%Result* %3, i8* getelementptr inbounds ([4 x i8], [4 x i8]* @0, i32 0, i32 0))
  call void @__quantum__rt__qubit_release(%Qubit* %c)
  call void @__quantum__rt__qubit_release(%Qubit* %b)
  call void @__quantum__rt__qubit_release(%Qubit* %a)
  ret void
}

define internal i1 @Correction__Parity(%Qubit* %x, %Qubit* %y) {
entry:
  %helper = call %Qubit* @__quantum__rt__qubit_allocate()
  call void @__quantum__qis__cnot__body(%Qubit* %x, %Qubit* %helper)
  call void @__quantum__qis__cnot__body(%Qubit* %y, %Qubit* %helper)
  %0 = call %Result* @__quantum__qis__m__body(%Qubit* %helper)
  %1 = call i1 @__quantum__rt__read_result(%Result* %0)
  call void @__quantum__rt__qubit_release(%Qubit* %helper)
  ret i1 %1
}

declare %Qubit* @__quantum__rt__qubit_allocate()

declare void @__quantum__rt__qubit_release(%Qubit*)

declare i1 @__quantum__rt__read_result(%Result*)

declare void @__quantum__rt__result_record_output(%Result*, i8*)

declare void @__quantum__qis__x__body(%Qubit*)

declare void @__quantum__qis__cnot__body(%Qubit*, %Qubit*)

declare %Result* @__quantum__qis__m__body(%Qubit*)

attributes #0 = { "entry_point" "output_labeling_schema" "qir_profiles"="adaptive_profile" }
