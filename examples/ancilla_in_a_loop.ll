%Qubit = type opaque

define i64 @main() #0 {
entry:
  br label %next

next:
  %round = phi i64 [ 0, %entry ], [ %more, %next ]
  %helper = call %Qubit* @__quantum__rt__qubit_allocate()
  call void @__quantum__qis__h__body(%Qubit* %helper)
  call void @__quantum__qis__cnot__body(%Qubit* %helper, %Qubit* null)
  call void @__quantum__rt__qubit_release(%Qubit* %helper)
  %more = add i64 %round, 1
  %again = icmp ult i64 %more, 3
  br i1 %again, label %next, label %done

done:
  ret i64 0
}

declare %Qubit* @__quantum__rt__qubit_allocate()
declare void @__quantum__rt__qubit_release(%Qubit*)
declare void @__quantum__qis__h__body(%Qubit*)
declare void @__quantum__qis__cnot__body(%Qubit*, %Qubit*)

attributes #0 = { "entry_point" "required_num_qubits"="1" "required_num_results"="0" }
