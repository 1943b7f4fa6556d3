%Qubit = type opaque
%Result = type opaque

@0 = internal constant [8 x i8] c"teleport"

define i64 @main() #0 {
entry:
  %message = call %Qubit* @__quantum__rt__qubit_allocate()
  %here = call %Qubit* @__quantum__rt__qubit_allocate()
  %there = call %Qubit* @__quantum__rt__qubit_allocate()
  call void @__quantum__qis__x__body(%Qubit* %message)
  call void @__quantum__qis__h__body(%Qubit* %here)
  call void @__quantum__qis__cnot__body(%Qubit* %here, %Qubit* %there)
  call void @__quantum__qis__cnot__body(%Qubit* %message, %Qubit* %here)
  call void @__quantum__qis__h__body(%Qubit* %message)
  call void @__quantum__qis__mz__body(%Qubit* %message, %Result* null)
  call void @__quantum__qis__mz__body(%Qubit* %here, %Result* inttoptr (i64 1 to %Result*))
  %flip = call i1 @__quantum__rt__read_result(%Result* inttoptr (i64 1 to %Result*))
  br i1 %flip, label %correct_bit, label %bit_corrected

correct_bit:
  call void @__quantum__qis__x__body(%Qubit* %there)
  br label %bit_corrected

bit_corrected:
  %turn = call i1 @__quantum__rt__read_result(%Result* null)
  br i1 %turn, label %correct_phase, label %phase_corrected

correct_phase:
  call void @__quantum__qis__z__body(%Qubit* %there)
  br label %phase_corrected

phase_corrected:
  call void @__quantum__qis__mz__body(%Qubit* %there, %Result* inttoptr (i64 2 to %Result*))
  call void @__quantum__rt__qubit_release(%Qubit* %there)
  call void @__quantum__rt__qubit_release(%Qubit* %here)
  call void @__quantum__rt__qubit_release(%Qubit* %message)
  call void @__quantum__rt__result_record_output(%Result* inttoptr (i64 2 to %Result*), i8* getelementptr inbounds ([8 x i8], [8 x i8]* @0, i32 0, i32 0))
  ret i64 0
}

declare %Qubit* @__quantum__rt__qubit_allocate()
declare void @__quantum__rt__qubit_release(%Qubit*)
declare i1 @__quantum__rt__read_result(%Result*)
declare void @__quantum__rt__result_record_output(%Result*, i8*)
declare void @__quantum__qis__h__body(%Qubit*)
declare void @__quantum__qis__x__body(%Qubit*)
declare void @__quantum__qis__z__body(%Qubit*)
declare void @__quantum__qis__cnot__body(%Qubit*, %Qubit*)
declare void @__quantum__qis__mz__body(%Qubit*, %Result*) #1

attributes #0 = { "entry_point" "required_num_qubits"="0" "required_num_results"="3" }
attributes #1 = { "irreversible" }
