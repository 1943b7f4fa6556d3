%Qubit = type opaque
%Result = type opaque

define i64 @main() #0 {
entry:
  %a = call %Qubit* @__quantum__rt__qubit_allocate()
  call void @__quantum__qis__h__body(%Qubit* %a)
  call void @__quantum__rt__qubit_release(%Qubit* %a)
  %b = call %Qubit* @__quantum__rt__qubit_allocate()
  call void @__quantum__qis__h__body(%Qubit* %b)
  call void @__quantum__rt__qubit_release(%Qubit* %b)
  ret i64 0
}

declare void @__quantum__rt__initialize(i8*)

declare %Qubit* @__quantum__rt__qubit_allocate()

declare void @__quantum__rt__qubit_release(%Qubit*)

declare i1 @__quantum__rt__read_result(%Result*)

declare i1 @__quantum__rt__result_equal(%Result*, %Result*)

declare void @__quantum__rt__result_record_output(%Result*, i8*)

declare void @__quantum__qis__h__body(%Qubit*)

declare void @__quantum__qis__x__body(%Qubit*)

declare void @__quantum__qis__z__body(%Qubit*)

declare void @__quantum__qis__cnot__body(%Qubit*, %Qubit*)

declare void @__quantum__qis__phase__body(i64, %Qubit*)

declare void @__quantum__qis__mz__body(%Qubit*, %Result*) #1

attributes #0 = { "entry_point" "required_num_qubits"="0" "required_num_results"="0" }
attributes #1 = { "irreversible" }
